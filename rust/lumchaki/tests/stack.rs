//! The header says how much stack a call needs at most: each is made on a thread that has so much.

use lumchaki::{
    lift, open, run, set_rule, tip, transfer, write, Head, Lift, Refusal, Tip, Transfer, PLACES,
};

/// What include/lumchaki.h says, with the thread's own frames inside it.
const STACK: usize = 192 << 10;

/// A book of 2,048 pieces of 2 g in vessel 0, under this rule.
fn book(rule: u32) -> Result<(Head, Vec<u32>), Refusal> {
    let mut table = vec![0; 4 * PLACES];
    let mut head = open(0, 2)?;
    for _ in 0..PLACES / 2 {
        transfer(&mut head, &mut table, Transfer::new([1, 0, 0, 2]))?;
    }
    set_rule(&mut head, &table, 0, rule)?;
    Ok((head, table))
}

/// A transfer of half of it, which fills the table where the vessel is stirred; a lift of all that is left,
/// and its tip.
fn calls((mut head, mut table): (Head, Vec<u32>)) -> Result<(), Refusal> {
    let half = PLACES as u32 / 2;
    transfer(&mut head, &mut table, Transfer::new([0, 1, 0, half]))?;
    lift(&mut head, &mut table, Lift::new([0, 0, half]))?;
    tip(&mut head, &mut table, Tip::new([1, 0]))
}

/// A sheet that moves more and more forth and back.
fn sheet(bytes: &[u8], table: &mut [u32]) -> Result<(), Refusal> {
    run(bytes, table).map(|_| ())
}

fn on_a_small_stack(call: impl FnOnce() -> Result<(), Refusal> + Send) {
    std::thread::scope(|scope| {
        let thread = std::thread::Builder::new().stack_size(STACK);
        let thread = thread.spawn_scoped(scope, call).expect("a thread starts");
        assert_eq!(thread.join().expect("the stack was enough"), Ok(()));
    });
}

#[test]
fn calls_fit_the_stack_that_the_header_names() {
    for rule in 0..5 {
        let book = book(rule).expect("the book is kept");
        on_a_small_stack(|| calls(book));
    }
    let numbers: Vec<u32> = (0..1_000)
        .flat_map(|i| [i % 2, 1 - i % 2, 0, i + 1, 0])
        .collect();
    let mut out = vec![0; 20_000];
    let names = b"A\0\0\0\0\0\0\0B\0\0\0\0\0\0\0";
    let bytes = write(2, 2, names, &numbers, &mut out).expect("it can be read");
    let mut table = vec![0; 4 * PLACES];
    on_a_small_stack(|| sheet(bytes, &mut table));
}
