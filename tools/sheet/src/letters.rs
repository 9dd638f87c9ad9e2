//! Letters that look alike and aren't: a letter and its mark as one character or as two, spaces that aren't the plain one,
//! marks that can't be seen.

/// By mark, each letter of the Latin, Greek and Cyrillic alphabets that it can stand above or below, and the two as one.
#[rustfmt::skip]
const COMPOSED: [(char, &str); 29] = [
    ('\u{300}', "AÀEÈIÌOÒUÙaàeèiìoòuùÜǛüǜNǸnǹЕЀИЍеѐиѝĒḔēḕŌṐōṑWẀwẁÂẦâầĂẰăằÊỀêềÔỒôồƠỜơờƯỪưừYỲyỳ"),
    ('\u{301}', "AÁEÉIÍOÓUÚYÝaáeéiíoóuúyýCĆcćLĹlĺNŃnńRŔrŕSŚsśZŹzźÜǗüǘGǴgǵÅǺåǻÆǼæǽØǾøǿΑΆΕΈΗΉΙΊΟΌΥΎΩΏϊΐ"),
    ('\u{301}', "αάεέηήιίϋΰοόυύωώГЃКЌгѓкќÇḈçḉĒḖēḗÏḮïḯKḰkḱMḾmḿÕṌõṍŌṒōṓPṔpṕŨṸũṹWẂwẃÂẤâấĂẮăắÊẾêếÔỐôốƠỚơớ"),
    ('\u{301}', "ƯỨưứ"),
    ('\u{302}', "AÂEÊIÎOÔUÛaâeêiîoôuûCĈcĉGĜgĝHĤhĥJĴjĵSŜsŝWŴwŵYŶyŷZẐzẑẠẬạậẸỆẹệỌỘọộ"),
    ('\u{303}', "AÃNÑOÕaãnñoõIĨiĩUŨuũVṼvṽÂẪâẫĂẴăẵEẼeẽÊỄêễÔỖôỗƠỠơỡƯỮưữYỸyỹ"),
    ('\u{304}', "AĀaāEĒeēIĪiīOŌoōUŪuūÜǕüǖÄǞäǟȦǠȧǡÆǢæǣǪǬǫǭÖȪöȫÕȬõȭȮȰȯȱYȲyȳИӢиӣУӮуӯGḠgḡḶḸḷḹṚṜṛṝ"),
    ('\u{306}', "AĂaăEĔeĕGĞgğIĬiĭOŎoŏUŬuŭУЎИЙийуўЖӁжӂАӐаӑЕӖеӗȨḜȩḝẠẶạặ"),
    ('\u{307}', "CĊcċEĖeėGĠgġIİZŻzżAȦaȧOȮoȯBḂbḃDḊdḋFḞfḟHḢhḣMṀmṁNṄnṅPṖpṗRṘrṙSṠsṡŚṤśṥŠṦšṧṢṨṣṩTṪtṫWẆwẇXẊ"),
    ('\u{307}', "xẋYẎyẏſẛ"),
    ('\u{308}', "AÄEËIÏOÖUÜaäeëiïoöuüyÿYŸΙΪΥΫιϊυϋЕЁІЇеёіїАӒаӓӘӚәӛЖӜжӝЗӞзӟИӤиӥОӦоӧӨӪөӫЭӬэӭУӰуӱЧӴчӵЫӸыӹ"),
    ('\u{308}', "HḦhḧÕṎõṏŪṺūṻWẄwẅXẌxẍtẗ"),
    ('\u{309}', "AẢaảÂẨâẩĂẲăẳEẺeẻÊỂêểIỈiỉOỎoỏÔỔôổƠỞơởUỦuủƯỬưửYỶyỷ"),
    ('\u{30a}', "AÅaåUŮuůwẘyẙ"),
    ('\u{30b}', "OŐoőUŰuűУӲуӳ"),
    ('\u{30c}', "CČcčDĎdďEĚeěLĽlľNŇnňRŘrřSŠsšTŤtťZŽzžAǍaǎIǏiǐOǑoǒUǓuǔÜǙüǚGǦgǧKǨkǩƷǮʒǯjǰHȞhȟ"),
    ('\u{30f}', "AȀaȁEȄeȅIȈiȉOȌoȍRȐrȑUȔuȕѴѶѵѷ"),
    ('\u{311}', "AȂaȃEȆeȇIȊiȋOȎoȏRȒrȓUȖuȗ"),
    ('\u{31b}', "OƠoơUƯuư"),
    ('\u{323}', "BḄbḅDḌdḍHḤhḥKḲkḳLḶlḷMṂmṃNṆnṇRṚrṛSṢsṣTṬtṭVṾvṿWẈwẉZẒzẓAẠaạEẸeẹIỊiịOỌoọƠỢơợUỤuụƯỰưựYỴyỵ"),
    ('\u{324}', "UṲuṳ"),
    ('\u{325}', "AḀaḁ"),
    ('\u{326}', "SȘsșTȚtț"),
    ('\u{327}', "CÇcçGĢgģKĶkķLĻlļNŅnņRŖrŗSŞsşTŢtţEȨeȩDḐdḑHḨhḩ"),
    ('\u{328}', "AĄaąEĘeęIĮiįUŲuųOǪoǫ"),
    ('\u{32d}', "DḒdḓEḘeḙLḼlḽNṊnṋTṰtṱUṶuṷ"),
    ('\u{32e}', "HḪhḫ"),
    ('\u{330}', "EḚeḛIḬiḭUṴuṵ"),
    ('\u{331}', "BḆbḇDḎdḏKḴkḵLḺlḻNṈnṉRṞrṟTṮtṯZẔzẕhẖ"),
];

/// A name with each letter and its mark as one character, where there is one.
pub fn composed(name: &str) -> String {
    let mut text = String::new();
    for letter in name.chars() {
        match text.chars().next_back().and_then(|base| with_mark(base, letter)) {
            Some(both) => {
                text.pop();
                text.push(both);
            }
            None => text.push(letter),
        }
    }
    text
}

/// A letter and a mark as one character.
fn with_mark(base: char, mark: char) -> Option<char> {
    let of_mark = COMPOSED.iter().filter(|(other, _)| *other == mark);
    let mut letters =
        of_mark.flat_map(|(_, letters)| letters.chars().zip(letters.chars().skip(1)).step_by(2));
    letters.find(|(letter, _)| *letter == base).map(|(_, both)| both)
}

/// What is wrong with the first character of a word that can't be told from another or can't be seen, if there is one.
pub fn odd(word: &str) -> Option<String> {
    word.chars().find_map(|letter| {
        let number = u32::from(letter);
        match letter {
            '\u{a0}' | '\u{202f}' | '\u{2007}' => Some(format!(
                "a no-break space (U+{number:04X}) in `{word}`; write a plain one, and a name of two words in quotes"
            )),
            ' ' => None,
            _ if letter.is_whitespace() => {
                Some(format!("a space that isn't the plain one (U+{number:04X}) in `{word}`"))
            }
            _ if letter.is_control() => Some("a word has a character that can't be printed".to_string()),
            _ if is_unseen(letter) => Some(format!(
                "a mark that can't be seen (U+{number:04X}, {}) in `{word}`; take it out",
                if is_direction(letter) { "a direction mark" } else { "without width" }
            )),
            '“' | '”' | '„' | '‟' | '«' | '»' if !word.contains('"') => {
                Some(format!("`{letter}` in `{word}`; names stand in plain quotation marks, \"Anna Smith\""))
            }
            _ => None,
        }
    })
}

/// A word without the marks that can't be seen, its spaces plain and single, its letters composed: what a table's cell names.
pub fn cleaned(cell: &str) -> String {
    let seen: String = cell.chars().filter(|letter| !is_unseen(*letter)).collect();
    let words: Vec<&str> = seen.split(|letter: char| letter.is_whitespace() || letter.is_control()).collect();
    composed(&words.into_iter().filter(|word| !word.is_empty()).collect::<Vec<_>>().join(" "))
}

/// A name without the marks that join or part letters, or choose their shape: names with the same rest look alike.
pub fn looks(name: &str) -> String {
    let shapes = |letter: &char| matches!(letter, '\u{200c}' | '\u{200d}' | '\u{fe00}'..='\u{fe0f}');
    name.chars().filter(|letter| !shapes(letter)).collect()
}

fn is_direction(letter: char) -> bool {
    matches!(letter, '\u{61c}' | '\u{200e}' | '\u{200f}' | '\u{202a}'..='\u{202e}' | '\u{2066}'..='\u{2069}')
}

fn is_unseen(letter: char) -> bool {
    is_direction(letter) || matches!(letter, '\u{ad}' | '\u{200b}' | '\u{2060}' | '\u{feff}')
}

/// How many columns of a terminal a name takes: marks none, the wide letters of East Asia and pictures two.
pub fn width(name: &str) -> usize {
    name.chars().map(columns).sum()
}

fn columns(letter: char) -> usize {
    match letter {
        '\u{300}'..='\u{36f}' | '\u{200c}' | '\u{200d}' | '\u{fe00}'..='\u{fe0f}' => 0,
        '\u{1100}'..='\u{115f}' | '\u{2e80}'..='\u{a4cf}' | '\u{ac00}'..='\u{d7a3}' => 2,
        '\u{f900}'..='\u{faff}' | '\u{fe30}'..='\u{fe6f}' | '\u{ff00}'..='\u{ff60}' => 2,
        '\u{1f300}'..='\u{1faff}' | '\u{20000}'..='\u{3fffd}' => 2,
        _ => 1,
    }
}

#[cfg(test)]
mod tests {
    use super::*;

    #[test]
    fn letters_and_marks() {
        assert_eq!(composed("Zoe\u{308}"), "Zo\u{eb}");
        assert_eq!(composed("o\u{323}\u{302}"), "\u{1ed9}");
        assert_eq!(composed("и\u{306}"), "й");
        assert_eq!(composed("q\u{308} q"), "q\u{308} q");
        assert_eq!(cleaned("\u{200f} Anna\u{a0}\u{a0} Smith\r"), "Anna Smith");
        assert_eq!(width("窓口 e\u{301}"), 6);
    }
}
