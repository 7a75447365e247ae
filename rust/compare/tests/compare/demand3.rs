//! The laws of demand 3, checked while lists of transfers, lifts, tips and reports run on one fresh book:
//! under all four rules, and with settings of the vessels' rules between the calls, also to rule 4. The
//! sums are owed for all lists, the count of pieces and the forecast where nothing is picked by rule 4.

mod covered;
mod followed;
mod forecast;

use calls::{Engine, STIRRED};
use compare::{call_list, room, subjects, with_settings, Call, Pair, Random};
use covered::Covered;
pub use followed::check_sums;
use followed::{follow, Ended, Followed};
use forecast::check_forecast;

/// Follows a list on a book that is opened by a rule, on a table of this length.
fn followed(
    (pair, covered, random): (&mut Pair, &mut Covered, &mut Random),
    (rule, vessels, length): (u32, u32, usize),
    list: &[Call],
) -> Ended {
    let table = room(random, length);
    let book = Followed::open(pair, covered, (rule, vessels), table);
    follow(book, random, list)
}

fn laws_of(subject: &'static dyn Engine, rounds: u32) {
    let mut pair = Pair::new(subject);
    let mut random = Random::new(21);
    let mut covered = Covered::default();
    for round in 0..rounds {
        let vessels = random.one_of(&[1, 2, 2, 3, 3, 3, 4, 4, 6, 64]);
        let mut calls = random.from_to(1, 60) as usize;
        let mut length = random.one_of(&[3, 4, 9, 20, 43, 100, 100, 240, 240, 400]);
        if round % 1_000 == 0 {
            (calls, length) = (2_000, 8_003);
        }
        let list = call_list(&mut random, vessels, calls);
        let mut ended = |rule, random: &mut Random, list: &[Call]| {
            let with = (&mut pair, &mut covered, random);
            followed(with, (rule, vessels, length), list)
        };
        let mut all: Vec<Ended> = (0..4).map(|rule| ended(rule, &mut random, &list)).collect();
        // Two lists more that differ from it, and from each other, in their settings alone, and two with
        // stirred vessels.
        let rule = random.below(4);
        let last = [3, 3, STIRRED, STIRRED];
        let settings = last.map(|last| with_settings(&mut random, vessels, last, &list));
        all.extend(settings.map(|with| ended(rule, &mut random, &with)));
        covered.apart += u32::from(all[4].pieces != all[5].pieces);
        covered.stirred_apart += u32::from(all[4].pieces != all[6].pieces);
        check_forecast(vessels, length, &list, &all, &mut covered);
        covered.lists += 1;
    }
    covered.expect(&pair);
}

#[test]
fn laws() {
    for subject in subjects() {
        laws_of(subject, 4_000);
    }
}

/// Settings before all other calls are as good as an opening: whatever rule a book was opened by, a list
/// leaves what it leaves without them on the book of the rule that they set.
#[test]
fn settings_first() {
    for subject in subjects() {
        let mut pair = Pair::new(subject);
        let mut random = Random::new(22);
        let mut covered = Covered::default();
        for round in 0..1_000 {
            let vessels = random.one_of(&[1, 2, 3, 4, 6, 64]);
            let length = random.one_of(&[9, 43, 100, 240]);
            let list = call_list(&mut random, vessels, 40);
            let (opened, rule) = (round / 4 % 4, round % 4);
            let set = (0..vessels).map(|vessel| Call::SetRule(vessel, rule));
            let with: Vec<Call> = set.chain(list.iter().cloned()).collect();
            let mut ended = |rule, list: &[Call]| {
                let with = (&mut pair, &mut covered, &mut random);
                followed(with, (rule, vessels, length), list)
            };
            let (first, by_opening) = (ended(opened, &with), ended(rule, &list));
            assert_eq!(first.pieces, by_opening.pieces, "{opened} {rule} {list:?}");
            assert_eq!(first.numbers, by_opening.numbers);
            let mut head = by_opening.head;
            head.rule = opened;
            assert_eq!(first.head, head);
        }
        pair.tally.print(&format!(
            "settings first, {} {:?}",
            pair.label(),
            covered.by_set_rule
        ));
        assert!(covered.by_set_rule[..4].iter().all(|&count| count > 500));
        assert!(pair.tally.count("set rule", 0) > 5_000);
        for call in ["transfer", "lift", "tip", "whole"] {
            assert!(pair.tally.count(call, 0) > 1_000, "{call}");
        }
    }
}
