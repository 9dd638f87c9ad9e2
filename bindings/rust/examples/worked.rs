//! The paper's sheet A, also with its second window settled first and asked for so many plans, for closed exchanges and for families, its
//! worked filter and the small sheets, through the safe functions.

use planner::{
    at_least, closed, families, filter, question, question_lent, report, run, run_lent, small_sheet,
    small_sheets, ABSENT,
};

/// Two windows, three duties, one rule (the windows differ), one exchange (the windows change places).
const SHEET_A: [u16; 32] = [
    2, 3, 1, 1, 16, 20, 52, 64, // header
    7, 7, // initial sets
    2, 6, 0, 1, 0, 1, 0, 2, 1, 0, 1, 2, 2, 0, 2, 1, // rule
    3, 4, 5, 0, 1, 2, // exchange
];

fn main() {
    let sheet: Vec<u8> = SHEET_A.iter().flat_map(|word| word.to_le_bytes()).collect();
    println!("{:?}", question(&sheet));
    println!("{:?}", question(&sheet[..63]));
    print!("{}", report(&sheet));

    let mut list = [0; 4];
    let answer = run(&sheet, 1_000_000, &mut list).expect("an accepted sheet");
    println!("{:?} {} {}: {:?}", answer.ending, answer.plans, answer.nodes, list);

    for pairs in [&[][..], &[1, 0]] {
        let mut list = [0; 6];
        let lent = run_lent(&sheet, pairs, &[], 1_000_000, &mut list).expect("an accepted sheet");
        println!("{:?} {:?}: {:?}", lent.answer.ending, &lent.counts[..2], list);
    }
    let bare = [&sheet[..6], &[0, 0], &sheet[8..14], &[52, 0], &sheet[16..52]].concat();
    let lent = run_lent(&bare, &[], &[0, 2], 1_000_000, &mut [0; 6]).expect("alike windows");
    println!("alike: {:?} {:?}", lent.answer.ending, &lent.counts[..2]);
    for (pairs, block) in
        [(&[1, 0, 1][..], &[][..]), (&[1, 2], &[]), (&[1, 0, 0, 1], &[]), (&[1, 0], &[0, 3])]
    {
        println!("{:?}", question_lent(&sheet, pairs, block));
    }

    for (plans, node_limit) in [(0, 0), (2, 3), (2, 2), (4, 6)] {
        println!("{:?}", at_least(&sheet, &[], &[], plans, node_limit));
    }
    println!("{:?}", at_least(&sheet, &[1, 0, 0, 1], &[], 0, 0));

    println!("{:?}", closed(&sheet, &[], &[]));
    println!("{:?}", closed(&bare, &[], &[0, 2]));
    let rotation = [3, 2, 0, 1, 16, 22, 22, 34, 3, 3, 3, 2, 3, 4, 5, 0, 1].map(u16::to_le_bytes).concat();
    println!("{:?}", closed(&rotation, &[], &[]));
    println!("{:?}", closed(&rotation, &[], &[0, 2]));

    for node_limit in [9, 8] {
        println!("{:?}", families(&sheet, &[1, 0], &[], node_limit));
    }
    println!("{:?}", families(&rotation, &[], &[], 14));
    println!("{:?}", families(&rotation, &[], &[1, 2], 14));
    println!("{:?}", families(&rotation, &[], &[2, 2], 14));

    let index = [0, 1, 2, 3, 4, 2, 5, 0];
    let equal = [ABSENT, 1, ABSENT, 1, 1, ABSENT, 2, ABSENT];
    let not_equal = [2, ABSENT, 1, ABSENT, ABSENT, 2, ABSENT, 1];
    // As in 001; with its x5 in {1, 2}; with its x2 = 1.
    for mut sets in [[6, 6, 6, 2, 2, 6], [6, 6, 6, 2, 6, 6], [6, 2, 6, 2, 2, 6]] {
        let ending = filter(&mut sets, &index, &equal, &not_equal);
        println!("{ending:?} {sets:?}");
    }
    println!("{:?}", filter(&mut [], &[], &[], &[]));

    println!("{} small sheets", small_sheets().count());
    println!("{:?} {:?}", small_sheet(543, &mut [0; 52]), small_sheet(544, &mut [0; 52]));
}
