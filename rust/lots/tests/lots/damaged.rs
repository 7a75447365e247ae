//! Damaged sheets and texts: an answer or a refusal, and never a panic.

use crate::ask;
use compare::{damage, sheet, Random};

const COMMANDS: [&str; 9] = [
    "whose -",
    "where - 0",
    "where - 0 3 9 --start Mon",
    "whole -",
    "whole - --csv",
    "check -",
    "text - --start Tue-12:00",
    "page -",
    "whose - --until 5 --movements 7",
];

/// Asks everything of these bytes. The status of `check`.
fn ask_all(bytes: &[u8]) -> u8 {
    for command in COMMANDS {
        let answer = ask(command, bytes);
        assert!(answer.status <= 1, "{command}: {}", answer.err);
        assert_eq!(answer.status == 0, answer.err.is_empty(), "{command}");
        assert!(answer.status == 1 || !answer.out.is_empty(), "{command}");
    }
    ask("check -", bytes).status
}

#[test]
fn damaged_sheets() {
    let mut random = Random::new(81);
    let (mut fit, mut unfit) = (0, 0);
    for _ in 0..3_000 {
        let mut bytes = sheet(&mut random, 12).bytes();
        for _ in 0..random.from_to(1, 2) {
            damage(&mut random, &mut bytes);
        }
        match ask_all(&bytes) {
            0 => fit += 1,
            _ => unfit += 1,
        }
        // Nor as a text.
        assert_eq!(ask("sheet -", &bytes).status, 1);
    }
    println!("damaged sheets: {fit} fit, {unfit} not");
    assert!(fit > 300 && unfit > 1_000);
}

/// The place of a fault is found for every sheet that is refused.
#[test]
fn every_fault_has_a_place() {
    let mut random = Random::new(82);
    for _ in 0..5_000 {
        let mut bytes = sheet(&mut random, 6).bytes();
        damage(&mut random, &mut bytes);
        let answer = ask("check -", &bytes);
        let out = String::from_utf8(answer.out).expect("text");
        let place = out.lines().nth(1).unwrap_or("");
        assert!(place.len() > 10, "{out}{}", answer.err);
    }
}

/// One damage to a text: a byte, a line struck, doubled or moved, a word, a cut.
fn damage_text(random: &mut Random, text: &mut Vec<u8>) {
    if text.is_empty() {
        return;
    }
    let mut lines: Vec<Vec<u8>> = text.split(|&b| b == b'\n').map(<[u8]>::to_vec).collect();
    let (one, other) = (random.index(lines.len()), random.index(lines.len()));
    let at = random.index(text.len());
    match random.below(7) {
        0 => text[at] = random.any() as u8,
        1 => text.truncate(at),
        2 => text.insert(at, random.one_of(b" \t\n\r0#-:gM\xff\x00")),
        3 => drop(text.remove(at)),
        kind => {
            match kind {
                4 => drop(lines.remove(one)),
                5 => lines.swap(one, other),
                _ => lines.insert(other, lines[one].clone()),
            }
            *text = lines.join(&b'\n');
        }
    }
}

#[test]
fn damaged_texts() {
    let mut random = Random::new(83);
    let (mut good, mut refused) = (0, 0);
    for _ in 0..6_000 {
        let start = random.one_of(&["", "--start Fri-22:00"]);
        let line = format!("text - {start}");
        let mut text = ask(&line, &sheet(&mut random, 12).bytes()).out;
        for _ in 0..random.from_to(1, 3) {
            damage_text(&mut random, &mut text);
        }
        let answer = ask("sheet -", &text);
        if answer.out.is_empty() {
            assert_eq!(answer.status, 1);
            let (_, line) = answer.err.split_once(": line ").expect("a line is named");
            let (line, _) = line.split_once(':').expect("a line is named");
            let line: usize = line.parse().expect("a number");
            let lines = text.split(|&b| b == b'\n' || b == b'\r').count();
            assert!((1..=lines).contains(&line));
            refused += 1;
        } else {
            ask_all(&answer.out);
            assert_eq!(ask("check -", &answer.out).status, answer.status);
            good += 1;
        }
    }
    println!("damaged texts: {good} still make a sheet, {refused} do not");
    assert!(good > 1_000 && refused > 1_000);
}

/// Bytes without any form.
#[test]
fn any_bytes() {
    let mut random = Random::new(84);
    for length in (0..200).chain([5_000, 70_000]) {
        let bytes: Vec<u8> = (0..length).map(|_| random.any() as u8).collect();
        assert_eq!(ask_all(&bytes), 1);
        assert_eq!(ask("sheet -", &bytes).status, 1);
        let mut marked = bytes;
        for (byte, mark) in marked.iter_mut().zip(b"PROV\0\0\x02\0\x01\0\0\0") {
            *byte = *mark;
        }
        assert_eq!(ask_all(&marked), 1);
    }
}
