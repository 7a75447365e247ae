//! A tip in two passes: the scale's pieces aside, the others close up.

use crate::book;
use crate::transfer::{close_up, GONE};
use calls::{Head, Refusal, Tip, PLACES, SCALE, TOP};

/// The refusals 23, 5, 8 and 9.
fn check(head: &Head, t: &Tip) -> Result<(), Refusal> {
    if head.scale == 0 {
        return Err(Refusal::ScaleBare);
    }
    if t.destination >= head.vessels {
        return Err(Refusal::NoVessel);
    }
    if t.minute < head.last {
        return Err(Refusal::ClockBack);
    }
    if head.balances[t.destination as usize] > TOP - head.scale {
        return Err(Refusal::Overfull);
    }
    Ok(())
}

/// A tip with all its checks: the next head.
pub fn tip(mut head: Head, table: &mut [u32], t: &Tip) -> Result<Head, Refusal> {
    book::check(&head, table)?;
    check(&head, t)?;
    let mut joining = [[0; 4]; PLACES];
    let pieces = &mut table.as_chunks_mut::<4>().0[..head.pieces as usize];
    let lifted = pieces.iter_mut().filter(|p| p[0] == SCALE);
    for (p, place) in lifted.zip(&mut joining) {
        *place = [t.destination, p[1], p[2], p[3]];
        p[0] = GONE;
    }
    let stay = close_up(pieces);
    let tipped = pieces.len() - stay;
    pieces[stay..].copy_from_slice(&joining[..tipped]);
    head.balances[t.destination as usize] += head.scale;
    head.scale = 0;
    head.last = t.minute;
    Ok(head)
}
