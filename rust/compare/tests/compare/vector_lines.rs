//! The lists of calls among the worked vectors: every engine gives what crates/vectors is held to.

use crate::desk::engines;
use calls::{Engine, Head, Lift, Tip, Transfer};

const GIVEN: &str = include_str!("../../../../crates/vectors/stdin");
const SHOWN: &str = include_str!("../../../../crates/vectors/stdout");

/// A book of three vessels on six places.
const VESSELS: u32 = 3;
const PLACES: usize = 6;

/// There is room for so many answers, and this number where none was written.
const ANSWERS: usize = 13;
const UNWRITTEN: u32 = 99;

/// A list of calls that is carried out.
struct Carried {
    engine: &'static dyn Engine,
    head: Head,
    table: [u32; 4 * PLACES],
    report: [u32; (VESSELS * VESSELS) as usize],
}

impl Carried {
    /// The number of the call that six numbers are, and the head after it. None for an age that is none.
    fn answer(&mut self, numbers: &[u32]) -> Option<(u32, Head)> {
        let (engine, head) = (self.engine, self.head);
        let (table, report) = (&mut self.table, &mut self.report);
        Some(match *numbers {
            [0, s, d, t, q, a] => {
                let transfer = Transfer::new([s, d, t, q]).aged(a.try_into().ok()?);
                let answer = engine.transfer(head, table, transfer);
                (answer.number, answer.head)
            }
            [4, s, t, q, a, _] => {
                let lift = Lift::new([s, t, q]).aged(a.try_into().ok()?);
                let answer = engine.lift(head, table, lift);
                (answer.number, answer.head)
            }
            [5, d, t, ..] => {
                let answer = engine.tip(head, table, Tip::new([d, t]));
                (answer.number, answer.head)
            }
            [6, v, rule, ..] => {
                let answer = engine.set_rule(head, table, v, rule);
                (answer.number, answer.head)
            }
            [1, v, ..] => (engine.held(head, table, v, report).number, head),
            [2, o, from, to, ..] => {
                let answer = engine.spread(head, table, o, (from, to), report);
                (answer.number, head)
            }
            [3, ..] => (engine.whole(head, table, report).number, head),
            _ => panic!("no call: {numbers:?}"),
        })
    }
}

/// The answers and the report of a line, which are all unwritten where an age is none.
fn carry_out(engine: &'static dyn Engine, line: &str) -> [Vec<u32>; 2] {
    let words = line.split(|c: char| !c.is_ascii_digit());
    let words = words.filter(|word| !word.is_empty());
    let numbers: Vec<u32> = words.map(|w| w.parse().expect("32 bits")).collect();
    let mut carried = Carried {
        engine,
        head: engine.open(numbers[0], VESSELS).head,
        table: [0; 4 * PLACES],
        report: [UNWRITTEN; (VESSELS * VESSELS) as usize],
    };
    let mut answers = [UNWRITTEN; ANSWERS];
    for (answer, call) in answers.iter_mut().zip(numbers[1..].chunks(6)) {
        let Some((number, head)) = carried.answer(call) else {
            return [
                vec![UNWRITTEN; ANSWERS],
                vec![UNWRITTEN; carried.report.len()],
            ];
        };
        (*answer, carried.head) = (number, head);
    }
    [answers.to_vec(), carried.report.to_vec()]
}

/// The lines that stand under headings of calls.
fn under_calls(text: &'static str) -> impl Iterator<Item = &'static str> {
    let mut calls = false;
    text.lines().filter(move |line| {
        if line.starts_with('#') {
            calls = line.starts_with("# calls");
            return false;
        }
        calls
    })
}

#[test]
fn lists_of_calls() {
    for engine in engines() {
        let shown: Vec<&str> = under_calls(SHOWN).collect();
        let given = under_calls(GIVEN);
        let mut count = 0;
        for (line, shown) in given.zip(shown.chunks(2)) {
            let carried = carry_out(engine, line).map(|numbers| {
                let words = numbers.iter().map(|n| format!("{n} "));
                words.collect::<String>()
            });
            assert_eq!(carried, *shown, "{} {line}", engine.label());
            count += 1;
        }
        assert_eq!(shown.len(), 2 * count);
        assert!(count > 18);
    }
}
