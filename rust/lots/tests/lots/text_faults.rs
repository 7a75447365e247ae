//! The faults of a text, with their lines.

use crate::ask;
use second::Sheet;

#[test]
fn faults_of_a_text() {
    let start = "rule 0\nvessel MILL\nvessel SILO\n";
    let many = |n, line: &dyn Fn(u32) -> String| (0..n).map(line).collect::<String>();
    let vessels = many(65, &|i| format!("vessel V{i}\n"));
    let movements = many(4_097, &|i| format!("{i} MILL -> SILO 1 g\n"));
    #[rustfmt::skip] // a table
    let faults = [
        ("".to_string(), 1, "there is no rule"),
        ("# nothing\n\n".to_string(), 1, "there is no rule"),
        ("vessel A\n".to_string(), 1, "the rule stands first, as: rule 0"),
        ("\n\nrule 4\n".to_string(), 3, "rule unknown (2): the rules are 0 first in first out, 1 last in"),
        ("rule x\n".to_string(), 1, "x: not a whole number in digits alone; the rules are 0 first in first out"),
        ("rule 0 1\n".to_string(), 1, "a rule is one number"),
        ("rule 0\nrule 0\n".to_string(), 2, "the rule stands twice"),
        ("# rye\nrule 0\n\n".to_string(), 2, "vessel count (3): there is no vessel"),
        (format!("rule 0\n{vessels}"), 66, "vessel count (3): there are at most 64 vessels"),
        ("rule 0\nvessel NINECHARS\n".to_string(), 2, "name (17): NINECHARS: a name is 1 to 8 letters, digits and signs"),
        ("rule 0\nvessel M\u{dc}HLE\n".to_string(), 2, "name (17): "),
        ("rule 0\nvessel A B\n".to_string(), 2, "a vessel has one name"),
        ("rule 0\nvessel A\nvessel A\n".to_string(), 3, "name (17): A: the name stands twice"),
        (format!("{start}5 MILL -> SIL0 1 g\n"), 4, "no vessel (5): SIL0 is none; the nearest: SILO"),
        (format!("{start}5 mill -> SILO 1 g\n"), 4, "no vessel (5): mill is none; the nearest: MILL"),
        (format!("{start}5 MILL SILO 1 g\n"), 4, "a movement is MINUTE FROM -> TO GRAMS g [age MINUTES]"),
        (format!("{start}5 MILL -> SILO 1 kg\n"), 4, "weights are in grams; a movement is MINUTE"),
        (format!("{start}start Mon\nTue-05:00 MILL -> SILO 1g\n"), 5, "a blank stands before g; a movement is MINUTE"),
        (format!("{start}5 MILL->SILO 1 g\n"), 4, "the arrow is -> with blanks around it; a movement is MINUTE"),
        (format!("{start}5 MILL -> SILO 1 g # rye\n"), 4, "a remark has a line of its own; a movement is MINUTE"),
        (format!("{start}start Mon\n05:00 MILL -> SILO 1 g\n"), 5, "05:00: a time has its weekday, one of Mon Tue Wed Thu Fri Sat Sun, as Tue-06:00"),
        (format!("{start}5 MILL -> SILO 1 g age 2h\n"), 4, "age 2h: not a whole number in digits alone"),
        ("r\0u\0l\0e\0 \x000\0\n".to_string(), 1, "this is no text of ASCII or UTF-8"),
        (format!("{start}5 MILL -> SILO 1 g age\n"), 4, "a movement is MINUTE"),
        (format!("{start}move MILL SILO\n"), 4, "a line is: rule N"),
        (format!("{start}5 MILL -> SILO 1.5 g\n"), 4, "weight 1.5: not a whole number in digits alone"),
        (format!("{start}5 MILL -> SILO 4294967296 g\n"), 4, "weight 4294967296: a number is at most 4294967295"),
        (format!("{start}-5 MILL -> SILO 1 g\n"), 4, "-5: a minute is a number"),
        (format!("{start}Tue-06:00 MILL -> SILO 1 g\n"), 4, "Tue-06:00: it is not said when minute 0 was, as --start Mon, or start Mon in a text"),
        (format!("{start}start Mon\nTue-25:00 MILL -> SILO 1 g\n"), 5, "Tue-25:00: a minute is a number, or a weekday and a time"),
        (format!("{start}start Monday\n"), 4, "Monday: a start is a weekday"),
        (format!("{start}5 MILL -> SILO 1 g\nstart Mon\n"), 5, "start stands once, before the movements"),
        (format!("{start}start Mon\nstart Mon\n"), 5, "start stands once, before the movements"),
        (format!("{start}5 MILL -> SILO 1 g age 99999999999\n"), 4, "filler (18): age 99999999999"),
        ("rule 4294967296\n".to_string(), 1, "rule unknown (2): the rules are"),
        ("rule 0\nvessel \u{1b}[2J\n".to_string(), 2, "name (17): \\u{1b}[2J: a name is"),
        (format!("{start}5 {} -> SILO 1 g\n", "x".repeat(1 << 20)), 4, "no vessel (5): xxxxxxxxxxxxxxxxxxxxxxxxxxxxxxxxxxxxxxxx... is none; a new one has its line above, as: vessel SILO\n"),
        (format!("{start}5 MILL -> SILO 1 g age 65536\n"), 4, "filler (18): age 65536"),
        (format!("{start}{movements}"), 4_100, "movements (15): there are at most 4096"),
    ];
    for (text, line, why) in faults {
        let wanted = format!("lots: -: line {line}: {why}");
        // Lines are counted alike, however they end.
        for end in ["\n", "\r\n", "\r"] {
            let answer = ask("sheet -", text.replace('\n', end).as_bytes());
            assert_eq!((answer.status, answer.out.len()), (1, 0), "{text}");
            assert!(
                answer.err.starts_with(&wanted),
                "{}wanted {wanted}",
                answer.err
            );
        }
    }
}

/// A text whose movements stop is a sheet all the same, and the line is that of the text as it was given.
#[test]
fn a_text_that_stops() {
    let text = "# a\nrule 0\n\nvessel A\nvessel B\n# b\n5 A -> B 1 g\n\n4 A -> B 1 g\n";
    let answer = ask("sheet -", text.as_bytes());
    let stopped =
        "lots: -: line 9: stopped at movement 1: clock back (8): its minute, 4, is before the last one, 5\n";
    assert_eq!((answer.status, answer.err.as_str()), (1, stopped));
    assert_eq!(Sheet::read(&answer.out).map(|s| s.movements.len()), Ok(2));
}

/// A start stands in the text or in the option; where it stands in both, it is the same.
#[test]
fn two_starts() {
    let text = "rule 0\nstart Mon\nvessel A\nvessel B\nTue-06:00 A -> B 1 g\n".as_bytes();
    let sheet = ask("sheet -", text);
    assert_eq!(sheet.status, 0, "{}", sheet.err);
    assert_eq!(ask("sheet - --start mon-0:00", text), sheet);
    let differ = ask("sheet - --start Tue", text);
    let why = "lots: -: line 2: start is Mon-00:00 here and Tue-00:00 in --start\n";
    assert_eq!((differ.status, differ.err.as_str()), (1, why));
}
