//! The numbers shown are those of the second implementation, read back from what is shown.

use crate::{ask, ask_words, matrix, names_of, page};
use calls::{Piece, PLACES, TOP};
use compare::{aged_day, near, sheet, working_day, Random};
use second::{Book, Sheet};
use std::cmp::Reverse;

/// A weight under a name, with its earliest and latest birth.
type Share = (String, u32, (u32, u32));

/// A sheet, and the book that the second implementation leaves of it.
struct Known {
    bytes: Vec<u8>,
    names: Vec<String>,
    book: Book,
    pieces: Vec<Piece>,
}

impl Known {
    fn of(sheet: &Sheet) -> Known {
        let Ok(outcome) = sheet.run(PLACES) else {
            panic!("a sheet that can be read is run");
        };
        Known {
            bytes: sheet.bytes(),
            names: names_of(sheet),
            pieces: outcome.book.pieces(),
            book: outcome.book,
        }
    }

    fn vessels(&self) -> std::ops::Range<u32> {
        0..self.names.len() as u32
    }

    fn name(&self, vessel: u32) -> String {
        self.names[vessel as usize].clone()
    }

    fn balance(&self, vessel: u32) -> u32 {
        self.book.head().balances[vessel as usize]
    }

    /// Weights by vessel, heaviest first, each with the births of the pieces that it is of.
    fn shares(&self, weights: &[u32], of: impl Fn(u32, &Piece) -> bool) -> Vec<Share> {
        let share = |(vessel, &weight): (u32, &u32)| {
            let births = self
                .pieces
                .iter()
                .filter(|p| of(vessel, p))
                .map(|p| p.birth);
            let first = births.clone().min()?;
            Some((self.name(vessel), weight, (first, births.max()?)))
        };
        let mut shares: Vec<Share> = self.vessels().zip(weights).filter_map(share).collect();
        shares.sort_by_key(|&(_, weight, _)| Reverse(weight));
        shares
    }

    fn held(&self, vessel: u32) -> Vec<Share> {
        let weights = self.book.held(vessel).expect("a vessel of the book");
        self.shares(&weights, |origin, p| {
            (p.holder, p.origin) == (vessel, origin)
        })
    }

    fn spread(&self, origin: u32, (from, to): (u32, u32)) -> Vec<Share> {
        let weights = self
            .book
            .spread(origin, from, to)
            .expect("an origin and a span");
        let born = |p: &Piece| p.origin == origin && (from..=to).contains(&p.birth);
        self.shares(&weights, |holder, p| p.holder == holder && born(p))
    }

    fn ask(&self, words: &[&str]) -> String {
        let answer = ask_words(words, &self.bytes);
        assert!(answer.status < 2, "{words:?}: {}", answer.err);
        let shown = String::from_utf8(answer.out).expect("text");
        // Where the sheet stops, a line before the answer says so.
        let stopped = shown
            .split_once('\n')
            .filter(|(first, _)| first.starts_with("as it stood "));
        assert_eq!(
            stopped.is_some(),
            answer.status == 1 && !words.contains(&"--csv") && words[0] != "page"
        );
        stopped.map_or(shown.clone(), |(_, rest)| rest.to_string())
    }
}

/// A line of a share, and whether its percentage is that of its weight.
fn share_of(line: &str, balance: impl Fn(&str) -> u32) -> Share {
    let words: Vec<&str> = line.split_ascii_whitespace().collect();
    let number = |at: usize| -> u32 { words[at].parse().expect("a number") };
    let [name, _, "g", part, "%", "born", _, rest @ ..] = words.as_slice() else {
        panic!("no share: {line}");
    };
    let births = match rest {
        [] => (number(6), number(6)),
        ["to", _] => (number(6), number(8)),
        _ => panic!("no births: {line}"),
    };
    let exact = 100.0 * f64::from(number(1)) / f64::from(balance(name));
    match *part {
        "<0.1" => assert!(0.0 < exact && exact < 0.05, "{line}"),
        ">99.9" => assert!((99.95..100.0).contains(&exact), "{line}"),
        _ => {
            let shown: f64 = part.parse().expect("a percentage");
            assert!((shown - exact).abs() < 0.050_000_1, "{line}: {exact}");
            assert!((shown > 0.0) && (shown < 100.0 || exact == 100.0), "{line}");
        }
    }
    (name.to_string(), number(1), births)
}

/// What is shown of one vessel, or of all.
fn whose(known: &Known, vessels: &[u32], words: &[&str]) {
    let shown = known.ask(words);
    let mut lines = shown.lines().peekable();
    for &vessel in vessels {
        let balance = known.balance(vessel);
        let head: Vec<&str> = lines
            .next()
            .expect("a vessel")
            .split_ascii_whitespace()
            .collect();
        match balance {
            0 => assert_eq!(head, [&known.name(vessel), "empty"]),
            _ => assert_eq!(
                head,
                [&known.name(vessel), balance.to_string().as_str(), "g"]
            ),
        }
        let mut shares = Vec::new();
        while let Some(line) = lines.next_if(|line| line.starts_with("  ")) {
            shares.push(share_of(line, |_| balance));
        }
        assert_eq!(shares, known.held(vessel));
    }
    assert_eq!(lines.next(), None);
}

/// The recall of an origin, with a span or without one. How many vessels it hit.
fn recall(known: &Known, origin: u32, span: Option<(u32, u32)>) -> usize {
    let ends = span.map(|(from, to)| (from.to_string(), to.to_string()));
    let number = origin.to_string();
    let name = known.name(origin);
    // By its number, unless that is the name of another one.
    let word = if known.names.contains(&number) {
        &name
    } else {
        &number
    };
    let mut words = vec!["where", "-", "--", word];
    if let Some((from, to)) = &ends {
        words.extend([from.as_str(), to.as_str()]);
    }
    let shown = known.ask(&words);
    let of = |name: &str| {
        known
            .names
            .iter()
            .position(|n| n == name)
            .expect("a vessel") as u32
    };
    let is_share = |line: &&str| {
        let weight = line.split_ascii_whitespace().nth(1);
        line.starts_with("  ") && weight.is_some_and(|word| word.parse::<u32>().is_ok())
    };
    let shares = shown.lines().skip(1).take_while(is_share);
    let shares: Vec<Share> = shares
        .map(|line| share_of(line, |n| known.balance(of(n))))
        .collect();
    let expected = known.spread(origin, span.unwrap_or((0, TOP)));
    assert_eq!(shares, expected);
    let total: u64 = expected
        .iter()
        .map(|&(_, weight, _)| u64::from(weight))
        .sum();
    let mut rest: Vec<&str> = shown.lines().skip(1 + shares.len()).collect();
    if shares.is_empty() {
        nowhere(known, origin, &mut rest);
    }
    let (count, vessels) = (expected.len(), known.names.len());
    let sum: Vec<&str> = rest[0].split_ascii_whitespace().collect();
    assert_eq!(
        sum.join(" "),
        format!("total {total} g in {count} of {vessels} vessels")
    );
    let clear = known
        .names
        .iter()
        .filter(|n| expected.iter().all(|(name, ..)| name != *n));
    let clear: Vec<&str> = clear.map(String::as_str).collect();
    let words: Vec<&str> = rest[1..]
        .iter()
        .flat_map(|l| l.split_ascii_whitespace())
        .collect();
    match clear.is_empty() {
        true => assert_eq!(words, ["no", "vessel", "is", "clear"]),
        false => assert_eq!(words, [vec!["clear"], clear].concat()),
    }
    count
}

/// Where nothing is hit, what there is in its place: the origin's births, or the origins that there are.
fn nowhere(known: &Known, origin: u32, rest: &mut Vec<&str>) {
    let total = rest
        .iter()
        .position(|line| line.starts_with("total "))
        .expect("a total");
    let said: Vec<&str> = rest
        .drain(..total)
        .flat_map(|l| l.split_ascii_whitespace())
        .collect();
    let (said, name) = (said.join(" "), known.name(origin));
    let births = known
        .pieces
        .iter()
        .filter(|p| p.origin == origin)
        .map(|p| p.birth);
    let wanted = match (births.clone().min(), births.max()) {
        (Some(first), Some(last)) => {
            let born = match first == last {
                true => first.to_string(),
                false => format!("{first} to {last}"),
            };
            format!("none: the flour of {name} that is there was born {born}")
        }
        _ if known.pieces.is_empty() => {
            format!("none: no flour was born in {name}, nor anywhere")
        }
        _ => {
            let born = |v: u32| known.pieces.iter().filter(move |p| p.origin == v);
            let weight = |v: u32| born(v).map(|p| u64::from(p.weight)).sum::<u64>();
            let mut origins: Vec<u32> = known.vessels().filter(|&v| weight(v) > 0).collect();
            origins.sort_by_key(|&v| Reverse(weight(v)));
            let names: Vec<String> = origins.iter().map(|&v| known.name(v)).collect();
            format!(
                "none: no flour was born in {name}, but in {}",
                names.join(" ")
            )
        }
    };
    assert_eq!(said, wanted);
}

fn everything(random: &mut Random, sheet: &Sheet) -> usize {
    let known = Known::of(sheet);
    let all: Vec<u32> = known.vessels().collect();
    whose(&known, &all, &["whose", "-"]);
    let one = random.below(known.names.len() as u32);
    let name = known.name(one);
    whose(&known, &[one], &["whose", "-", "--", &name]);
    matrix::whole(&known.ask(&["whole", "-"]), &known.names, &known.book);
    matrix::csv(
        &known.ask(&["whole", "-", "--csv"]),
        &known.names,
        &known.book,
    );
    page::page(&known.ask(&["page", "-"]), &known.names, &known.pieces);
    let births: Vec<u32> = known.pieces.iter().map(|p| p.birth).chain([0]).collect();
    let (one_end, other) = (near(random, &births), near(random, &births));
    let span = (one_end.min(other), one_end.max(other));
    recall(&known, random.below(known.names.len() as u32), None)
        + recall(&known, random.below(known.names.len() as u32), Some(span))
}

#[test]
fn as_the_second_implementation_has_them() {
    let mut random = Random::new(71);
    let mut hit = 0;
    for _ in 0..2_000 {
        let sheet = sheet(&mut random, 40);
        hit += everything(&mut random, &sheet);
    }
    for rule in 0..4 {
        let day = working_day(&mut random, rule);
        hit += everything(&mut random, &day);
        let day = aged_day(&mut random, rule);
        hit += everything(&mut random, &day);
    }
    println!("numbers shown: 2008 sheets, {hit} vessels hit by 4016 recalls");
    assert!(hit > 3_000);
}

/// The listing is the proved program's, and so are its bytes; the second implementation has the same.
#[test]
fn listing_as_it_was() {
    let mut random = Random::new(72);
    for round in 0..300 {
        let mut bytes = sheet(&mut random, 20).bytes();
        if round % 2 == 1 {
            compare::damage(&mut random, &mut bytes);
        }
        let listing = second::listing(&bytes);
        let answer = ask("list -", &bytes);
        assert_eq!(String::from_utf8_lossy(&answer.out), listing);
        assert_eq!(ask("-", &bytes), answer);
        let fit = !listing.starts_with("refused") && !listing.contains("stopped");
        assert_eq!(answer.status, u8::from(!fit), "{listing}{}", answer.err);
        assert_eq!(answer.err.is_empty(), fit);
    }
}
