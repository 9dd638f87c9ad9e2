//! What the program writes with `--json`, held to docs/schema/sheet.json.

use sheet::json::Json;
use std::process::Output;

use crate::program::{fed, root, said};
use crate::schema::{field, members, parse, Schema};

fn schema() -> Schema {
    let text = std::fs::read_to_string(root().join("docs/schema/sheet.json")).unwrap();
    Schema(parse(&text).unwrap())
}

/// The program with words parted by spaces and a text on standard input.
fn sheet(words: &str, text: &str) -> Output {
    fed(&words.split(' ').collect::<Vec<_>>(), text.as_bytes())
}

/// What the program answers, right by a definition of the schema and by the whole of it; its status is the answer's.
fn answer(words: &str, text: &str, name: &str) -> Json {
    let output = sheet(words, text);
    let value = parse(said(&output.stdout)).unwrap_or_else(|wrong| panic!("{words}: {wrong}"));
    let schema = schema();
    assert_eq!((schema.wrong(name, &value), schema.wrong_in_all(&value)), (None, None), "{words}");
    let status = output.status.code().unwrap() as u32;
    assert_eq!(field(&value, "status"), Some(&status.into()), "{words}");
    value
}

/// Some fields of an answer, one after the other.
fn some(value: &Json, names: &str) -> String {
    let one = |name: &str| field(value, name).map_or("-".to_string(), Json::to_string);
    names.split(' ').map(one).collect::<Vec<_>>().join(" ")
}

const NO_PLAN: &str = "windows a b\nduties x\ndifferent a b\n";
const FAULTS: &str = "windows a b\nduties x y\ndifferent a till\nmay b z\n";

#[test]
fn plans() {
    for (words, said) in [
        ("plans --json examples/hall.txt", "\"finished\" 0 13 13 51 1000000 4096 13 true"),
        ("plans --json --trials 5 examples/hall.txt", "\"spent\" 2 1 1 5 5 4096 null null"),
        ("plans --json --plans 2 examples/cycle.txt", "\"full\" 2 2 2 8 1000000 2 null null"),
        (
            "plans --json --where win1=cid examples/stand.txt",
            "\"finished\" 0 31 57 216 1000000 4096 57 false",
        ),
    ] {
        let value = answer(words, "", "plans");
        let names = "ending status listed found trials allowance room families closed";
        assert_eq!(some(&value, names), said, "{words}");
    }
    let none = answer("plans --json -", NO_PLAN, "plans");
    assert_eq!(some(&none, "ending status listed plans"), "\"finished\" 4 0 []");
    let order = answer("plans --json tools/sheet/tests/golden/order.txt", "", "plans");
    assert_ne!(field(&order, "order"), field(&order, "windows"));
    let hall = answer("plans --json -", "windows a b\nduties x y\nbefore b a\nfix a y\n", "plans");
    assert_eq!(some(&hall, "hall order"), "\"standard input\" [\"b\", \"a\"]");
    assert_eq!(some(&hall, "version planner"), "\"1.0.0\" \"1.0.0\"");
    assert_eq!(
        some(&hall, "by_window plans"),
        "{\"a\": 2, \"b\": 2} [{\"a\": \"y\", \"b\": \"x\"}, {\"a\": \"y\", \"b\": \"y\"}]"
    );
    let notes = answer("plans --json --fix win1=cid examples/stand.txt", "", "plans");
    assert_eq!(members(field(&notes, "notes").unwrap()).len(), 4);
}

/// One plan is asked for by `--first` or by `--plans 1`: the same in words, for machines and as status.
#[test]
fn first() {
    let one = "windows a b\nduties x\n";
    for (text, rest, status) in [
        ("", "examples/hall.txt", 0),
        ("", "--trials 4 examples/hall.txt", 2),
        ("", "--trials 5 examples/hall.txt", 0),
        ("", "--trials 100 examples/cycle.txt", 0),
        (one, "-", 0),
        (NO_PLAN, "-", 4),
    ] {
        for form in ["", "--json ", "--csv "] {
            let [first, room] = ["--first", "--plans 1"].map(|option| {
                let output = sheet(&format!("plans {form}{option} {rest}"), text);
                (output.status.code(), output.stdout, output.stderr)
            });
            assert_eq!(first, room, "{form}{rest}");
            assert_eq!(first.0, Some(status), "{form}{rest}");
            let is_first = said(&first.1).contains("\"ending\": \"first\"");
            assert_eq!(is_first, form == "--json " && status == 0 && text.is_empty(), "{rest}");
        }
    }
}

#[test]
fn enough() {
    for (words, said) in [
        ("enough --json 57 examples/stand.txt", "\"yes\" 0 57 57 212"),
        ("enough --json 58 examples/stand.txt", "\"no\" 1 58 57 216"),
        ("enough --json 58 --trials 215 examples/stand.txt", "\"spent\" 2 58 57 215"),
    ] {
        let value = answer(words, "", "enough");
        assert_eq!(some(&value, "ending status asked found trials"), said, "{words}");
    }
    let fault = answer("enough --json 1 -", FAULTS, "failure");
    assert_eq!(some(&fault, "ending status"), "\"fault\" 3");
}

#[test]
fn why() {
    let plan = answer("why --json examples/a.txt", "", "why");
    assert_eq!(some(&plan, "status plan lines"), "0 {\"left\": \"sell\", \"right\": \"pay\"} []");
    let none = answer("why --json -", NO_PLAN, "why");
    let line = "{\"first\": 3, \"last\": 3, \"words\": \"different a b\", \"needed\": true}";
    assert_eq!(some(&none, "ending status plan lines"), format!("\"finished\" 4 null [{line}]"));
    let short = answer("why --json --trials 1 examples/hall.txt", "", "why");
    assert_eq!(some(&short, "ending status plan lines"), "\"spent\" 2 null []");
    let broken = answer("why --json tools/sheet/tests/golden/broken.txt", "", "why");
    assert!(members(field(&broken, "lines").unwrap()).len() > 1);
}

#[test]
fn best() {
    let text = "windows a b\nduties x y z\ndifferent a b\nprefer a z 3\nprefer b z\n";
    let value = answer("best --json 2 -", text, "best");
    assert_eq!(some(&value, "ending status asked listed found all"), "\"finished\" 0 2 2 2 false");
    let [first, _] = members(field(&value, "best").unwrap()) else { panic!("two plans") };
    assert_eq!(some(first, "cost plan free"), "1 {\"a\": \"z\", \"b\": \"x\"} [\"y\"]");
    assert_eq!(some(first, "broken"), "[\"`b` hasn't `z` (1)\"]");
    assert_eq!(some(&answer("best --json -", NO_PLAN, "best"), "status all best"), "4 true []");
    let short = answer("best --json --trials 1 -", text, "best");
    assert_eq!(some(&short, "ending status"), "\"spent\" 2");
    let both = answer("best --json --fixed -", text, "failure");
    assert_eq!(some(&both, "words"), "\"best takes one of --csv, --json and --fixed\"");
}

#[test]
fn explain() {
    let value = answer("explain --json examples/a.sheet", "", "explain");
    assert_eq!(some(&value, "hall windows duties rules exchanges"), "\"examples/a.sheet\" 2 3 1 1");
    answer("explain --json examples/stand.txt", "", "explain");
}

/// Faults and refusals: each with its file, its line, the refusal's number and item, and its words. Standard error says what
/// it says without `--json`.
#[test]
fn failures() {
    let at = |line: u32, words: &str| {
        format!(
            "{{\"file\": \"standard input\", \"line\": {line}, \"number\": null, \"item\": null, \"words\": \"{words}\"}}"
        )
    };
    let two = format!("[{}, {}]", at(3, "no window is called `till`"), at(4, "no duty is called `z`"));
    for command in ["plans", "best", "why", "explain"] {
        let fault = answer(&format!("{command} --json -"), FAULTS, "failure");
        assert_eq!(some(&fault, "command ending faults"), format!("\"{command}\" \"fault\" {two}"));
        let output = sheet(&format!("{command} --json -"), FAULTS);
        let lines = "standard input:3: no window is called `till`\nstandard input:4: no duty is called `z`\n";
        assert_eq!(said(&output.stderr), lines, "{command}");
    }
    for (words, text, ending, told) in [
        ("plans --json -", "windows a b\nduties x y\nbefore a b\nbefore b a\n", "\"fault\"", "4 30 0"),
        ("plans --json -", "windows a b\nduties x\nmay b\n", "\"fault\"", "3 8 1"),
        ("plans --json -", "windows a b\nduties x y\nforbid a x\nalike a b\n", "\"fault\"", "4 16 1"),
        ("plans --json -", "\u{1}\0\u{1}", "\"refused\"", "null 1 0"),
        ("explain --json -", "\u{1}\0\u{1}", "\"refused\"", "null 1 0"),
        ("why --json none.txt", "", "\"failed\"", "null null null"),
        ("why --json --fast none.txt", "", "\"fault\"", "null null null"),
        ("plans --json --csv examples/a.txt", "", "\"fault\"", "null null null"),
        ("plans --json --fix left=x examples/a.txt", "", "\"fault\"", "null null null"),
        ("plans --json --strict --fix win1=cid examples/stand.txt", "", "\"fault\"", "21 null null"),
    ] {
        let value = answer(words, text, "failure");
        let fault = &members(field(&value, "faults").unwrap())[0];
        assert_eq!(some(&value, "ending"), ending, "{words}");
        assert_eq!(some(fault, "line number item"), told, "{words}: {fault}");
    }
}

/// The schema refuses an answer that lacks a field, has another one, or has a field of another kind; so the tests above say
/// something.
#[test]
fn wrong_answers() {
    let schema = schema();
    for (words, text, name) in [
        ("plans --json examples/a.txt", "", "plans"),
        ("best --json examples/a.txt", "", "best"),
        ("enough --json 1 examples/a.txt", "", "enough"),
        ("why --json -", NO_PLAN, "why"),
        ("explain --json examples/a.txt", "", "explain"),
        ("plans --json -", FAULTS, "failure"),
    ] {
        let Json::Object(fields) = answer(words, text, name) else { panic!("an object") };
        for number in 0..fields.len() {
            let mut less = fields.clone();
            less.remove(number);
            let mut other = fields.clone();
            other[number].1 = Json::Object(vec![("x".to_string(), Json::List(Vec::new()))]);
            for wrong in [less, other].map(Json::Object) {
                assert!(schema.wrong(name, &wrong).is_some(), "{name}: {wrong}");
                assert!(schema.wrong_in_all(&wrong).is_some(), "{name}: {wrong}");
            }
        }
        let more = [&fields[..], &[("more".to_string(), Json::Null)]].concat();
        assert!(schema.wrong(name, &Json::Object(more)).is_some(), "{name}");
    }
    let value = parse("{\"a\": [1, \"\\u0007\\n\\\\é\"], \"b\": {}}").unwrap();
    assert_eq!(parse(&value.to_string()), Ok(value));
    for wrong in ["", "{", "[1,]", "{\"a\" 1}", "\"a", "nul", "1 2", "\"\\x\"", "-1", "\"\n\""] {
        assert!(parse(wrong).is_err(), "{wrong}");
    }
}
