//! Runs and their stops: a run is the transfers of its sheet, made one by one on a book opened for
//! it, up to the first that is refused.

use calls::{Engine, Transfer};
use compare::{room, sheet, subjects, Pair, Random};

/// The transfers that runs stopped at.
#[derive(Debug, Default)]
struct Stops {
    at_once: u32,
    later: u32,
    none: u32,
}

/// Runs a sheet, and makes its transfers one by one by the same engine's own calls. Head and table
/// are those after the last accepted one, and the transfer at the stop gives the run's number.
fn follow(pair: &mut Pair, random: &mut Random, stops: &mut Stops) {
    let sheet = sheet(random, 40);
    let length = random.one_of(&[4, 12, 43, 400]);
    let mut table = room(random, length);
    let mut by_hand = table.clone();
    let ran = pair.run(&sheet.bytes(), &mut table);

    let (accepted, rest) = sheet.movements.split_at(ran.index as usize);
    let mut head = pair.open(sheet.rule, sheet.names.len() as u32).head;
    let mut even = 0;
    for &movement in accepted {
        let answer = pair.transfer(head, &mut by_hand, movement);
        assert_eq!(answer.number, 0);
        even += u32::from(answer.even());
        head = answer.head;
    }
    let number = |t: &Transfer| pair.transfer(head, &mut by_hand, *t).number;
    let stop = rest.first().map_or(0, number);
    assert_eq!((ran.number, ran.even, ran.head), (stop, even, head));
    assert_eq!(table, by_hand);
    match (ran.number, ran.index) {
        (0, _) => stops.none += 1,
        (_, 0) => stops.at_once += 1,
        _ => stops.later += 1,
    }
}

fn runs_of(subject: &'static dyn Engine) {
    let mut pair = Pair::new(subject);
    let mut random = Random::new(61);
    let mut stops = Stops::default();
    for _ in 0..4_000 {
        follow(&mut pair, &mut random, &mut stops);
    }
    let ages = &pair.ages;
    pair.tally.print(&format!(
        "runs by hand, {} {stops:?} {ages:?}",
        pair.label()
    ));
    assert!(stops.none > 500 && stops.at_once > 100 && stops.later > 1_000);
    pair.tally.expect("run", &[0, 6, 7, 8, 9, 11, 21], 20);
}

#[test]
fn run_is_its_transfers_up_to_the_stop() {
    for subject in subjects() {
        runs_of(subject);
    }
}
