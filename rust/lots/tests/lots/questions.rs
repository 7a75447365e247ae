//! The command line: what is asked, what is wrong use, which vessel is meant.

use crate::{ask, ask_words, file, text};
use lots::USAGE;

#[test]
fn usage() {
    for line in ["--help", "help", "-h", "whose --help", "--help --csv"] {
        assert_eq!(text(line, b""), USAGE, "{line}");
    }
    assert_eq!(text("", b""), USAGE);
}

#[test]
fn wrong_use() {
    let sheet = file("examples/two-paths.sheet");
    #[rustfmt::skip] // a table
    let wrong = [
        ("whose", "whose: no sheet is named"),
        ("sheet", "sheet: no text is named"),
        ("where -", "where: a sheet and an origin are to be named"),
        ("where - MILLER-B 5", "where: a span has two ends, FROM and TO"),
        ("where - MILLER-B 5 6 7", "7: one word too many"),
        ("where - MILLER-B now 6", "now: a minute is a number"),
        ("where - MILLER-B Tue-06:00 Tue-12:00", "Tue-06:00: it is not said when minute 0 was"),
        ("check - -", "-: one word too many"),
        ("whos -", "whos: no such command"),
        ("whose - --csv", "--csv goes with whole alone"),
        ("whole - --csv=1", "--csv takes no value"),
        ("whole - --tsv", "--tsv: no such option"),
        ("whose - --until", "--until has no value"),
        ("whose - --until 5x", "5x: not a whole number"),
        ("whose - --movements -1", "-1: not a whole number"),
        ("whose - --start Someday", "Someday: a start is a weekday"),
        ("--csv", "no sheet is named"),
        ("whose - --until 5 --until=9", "--until stands twice"),
        ("check - \u{1b}[2J", "\\u{1b}[2J: one word too many"),
        ("whos", "no such command, and whos: "),
    ];
    for (line, why) in wrong {
        let answer = ask(line, &sheet);
        assert_eq!((answer.status, answer.out.len()), (2, 0), "{line}");
        let wanted = format!("{USAGE}\nlots: {why}");
        assert!(answer.err.starts_with(&wanted), "{line}: {}", answer.err);
    }
    let missing = ask("whose no/such/file", b"");
    assert_eq!((missing.status, missing.out.len()), (2, 0));
    assert!(
        missing.err.starts_with("lots: no/such/file: "),
        "{}",
        missing.err
    );
}

#[test]
fn vessels_by_name_or_number() {
    let sheet = file("examples/two-paths.sheet");
    let named = text("whose - DOUGH-3 MIXER", &sheet);
    assert_eq!(text("whose - 8 5", &sheet), named);
    assert_eq!(text("where - 1", &sheet), text("where - MILLER-B", &sheet));
    let unknown = [
        (
            "whose - DOUGH-2 DOUGH2",
            "DOUGH2 is none; the nearest: DOUGH-2 DOUGH-1 DOUGH-3",
        ),
        ("whose - mixer", "mixer is none; the nearest: MIXER"),
        (
            "where - MILER-B",
            "MILER-B is none; the nearest: MILLER-B MILLER-A",
        ),
        ("where - 9", "9 is none; numbers are below 9"),
    ];
    for (line, why) in unknown {
        let answer = ask(line, &sheet);
        assert_eq!((answer.status, answer.out.len()), (1, 0), "{line}");
        assert_eq!(answer.err, format!("lots: no vessel (5): {why}\n"));
    }
    let back = ask("where - 1 1800 1799", &sheet);
    assert_eq!(
        (back.status, back.err.as_str()),
        (
            1,
            "lots: span back (12): 1800 is minute 1800, and 1799 is minute 1799\n"
        )
    );
}

/// Names that look like options, numbers or words of the text form.
#[test]
fn strange_names() {
    let strange = [
        "--csv", "-", "->", "#", "rule", "g", "age", "0", "\"a,b\"", "5", "</script", "--",
    ];
    let vessels: String = strange
        .iter()
        .map(|name| format!("vessel {name}\n"))
        .collect();
    let moves =
        "1 --csv -> - 7 g\n2 -> -> # 3 g age 1\n3 rule -> g 2 g\n4 age -> 0 9 g\n5 5 -> -- 4 g\n";
    let made = ask("sheet -", format!("rule 1\n{vessels}{moves}").as_bytes());
    assert_eq!((made.status, made.err.as_str()), (0, ""));
    let sheet = made.out;
    assert_eq!(ask("sheet -", text("text -", &sheet).as_bytes()).out, sheet);
    for (number, name) in strange.iter().enumerate() {
        let by_name = ask_words(&["whose", "-", "--", name], &sheet);
        assert_eq!(by_name.status, 0, "{}", by_name.err);
        assert!(String::from_utf8_lossy(&by_name.out).starts_with(name));
        // A name that is a number goes before the vessel of that number.
        if !["0", "5"].contains(&number.to_string().as_str()) {
            assert_eq!(
                ask_words(&["whose", "-", &number.to_string()], &sheet),
                by_name
            );
        }
    }
    let csv = text("whole - --csv", &sheet);
    assert!(
        csv.starts_with("vessel,--csv,-,->,#,rule,g,age,0,\"\"\"a,b\"\"\",5,</script,--\n"),
        "{csv}"
    );
}

/// What was born where, and which vessel gave more than it had received: not one that gets flour back later.
#[test]
fn births_in_check() {
    let moves = [
        "5 A -> B 10 g\n",
        "6 B -> A 3 g\n",
        "7 A -> B 5 g\n",
        "8 B -> C 13 g\n",
    ];
    let born = |count: usize| {
        let text = format!(
            "rule 0\nvessel A\nvessel B\nvessel C\n{}",
            moves[..count].concat()
        );
        let check = crate::text("check -", &ask("sheet -", text.as_bytes()).out);
        let lines = check
            .lines()
            .filter_map(|line| line.strip_prefix("  born       "));
        lines.map(str::to_string).collect::<Vec<_>>()
    };
    assert_eq!(born(0), [""; 0]);
    assert_eq!(born(1), ["A 10 g"]);
    assert_eq!(born(2), ["A 10 g"]);
    assert_eq!(born(3), ["A 12 g, more than it had received"]);
    let all = [
        "A 12 g, more than it had received",
        "B 1 g, more than it had received",
    ];
    assert_eq!(born(4), all);
}
