//! Text and sheet, forth and back, byte for byte.

use crate::{ask, text, without_cut};
use compare::{aged_day, heaviest, sheet, working_day, Random};
use second::Sheet;

/// The sheet of a text. It may stop at a movement, which is no fault of the text.
fn sheet_of(line: &str, text: &str) -> Vec<u8> {
    let answer = ask(line, text.as_bytes());
    let stopped = answer.status == 1 && answer.err.contains("stopped at movement");
    assert!(answer.status == 0 || stopped, "{}{text}", answer.err);
    answer.out
}

fn text_of(line: &str, sheet: &[u8]) -> String {
    let answer = ask(line, sheet);
    assert!(
        answer.status < 2 && !answer.out.is_empty(),
        "{}",
        answer.err
    );
    String::from_utf8(answer.out).expect("text")
}

/// The same text as other hands would write it: blanks, tabs, other ends of lines, remarks between them.
fn roughened(random: &mut Random, text: &str) -> String {
    let end = random.one_of(&[
        "\n",
        "\r\n",
        "\r",
        "\r# a remark\r",
        " \n",
        "\n\n",
        "\n# a remark, \u{fc}ber Mehl\n",
    ]);
    let blank = random.one_of(&[" ", "\t", "  "]);
    let lines = text.lines().map(|line| line.replace(' ', blank) + end);
    let mark = random.one_of(&["", "\u{feff}"]);
    mark.to_string() + &lines.collect::<String>()
}

#[test]
fn sheet_to_text_and_back() {
    let mut random = Random::new(61);
    let (mut movements, mut stopped) = (0, 0);
    for round in 0..4_000 {
        let sheet = sheet(&mut random, 30);
        let bytes = sheet.bytes();
        let start = random.one_of(&["", "--start Mon", "--start Sun-23:59", "--start=wed-05:30"]);
        let written = text_of(&format!("text - {start}"), &bytes);
        assert_eq!(sheet_of("sheet -", &written), bytes, "{written}");
        if round % 4 == 0 {
            let rough = roughened(&mut random, &written);
            assert_eq!(sheet_of("sheet -", &rough), bytes, "{rough}");
            let plain = text_of("text -", &bytes);
            assert_eq!(
                sheet_of(&format!("sheet - {start}"), &plain),
                bytes,
                "{plain}"
            );
        }
        movements += sheet.movements.len();
        stopped += u32::from(ask("check -", &bytes).status == 1);
    }
    println!("text and sheet: 4000 sheets, {stopped} of which stop, {movements} movements");
    assert!(movements > 40_000 && stopped > 500);
}

#[test]
fn the_longest_sheets() {
    let mut random = Random::new(62);
    for rule in 0..4 {
        for sheet in [
            heaviest(rule),
            working_day(&mut random, rule),
            aged_day(&mut random, rule),
        ] {
            let written = text("text -", &sheet.bytes());
            assert_eq!(sheet_of("sheet -", &written), sheet.bytes());
        }
    }
}

/// A cut sheet is the sheet of the movements before the cut, in every command alike.
#[test]
fn cuts() {
    let mut random = Random::new(63);
    for _ in 0..1_000 {
        let whole = sheet(&mut random, 12);
        let count = random.index(14);
        let until = match whole.movements.is_empty() {
            true => random.below(5),
            false => whole.movements[random.index(whole.movements.len())].minute,
        };
        let (line, kept) = match random.below(3) {
            0 => (format!("--movements {count}"), count),
            1 => (format!("--until {until}"), earlier(&whole, until)),
            _ => (
                format!("--movements={count} --until={until}"),
                count.min(earlier(&whole, until)),
            ),
        };
        let cut = Sheet {
            movements: whole.movements[..kept.min(whole.movements.len())].to_vec(),
            ..whole.clone()
        };
        let written = text_of("text -", &whole.bytes());
        assert_eq!(sheet_of(&format!("sheet - {line}"), &written), cut.bytes());
        for command in [
            "text -",
            "whose -",
            "where - 0",
            "whole -",
            "check -",
            "page -",
            "list -",
        ] {
            let mut cut_there = ask(&format!("{command} {line}"), &whole.bytes());
            let kept = without_cut(&cut_there.out);
            let says_so = ["whose -", "where - 0", "whole -", "check -", "page -"];
            assert_eq!(kept.len() < cut_there.out.len(), says_so.contains(&command));
            cut_there.out = kept;
            assert_eq!(cut_there, ask(command, &cut.bytes()), "{command}");
        }
    }
}

/// How many movements lie before the first that is later than a minute.
fn earlier(sheet: &Sheet, until: u32) -> usize {
    let movements = sheet.movements.iter();
    movements.take_while(|m| m.minute <= until).count()
}
