//! What a stirred vessel gives: a pass that tells the shares, and one that lays them.

use calls::{Transfer, PLACES};

/// How many pieces give all of their weight, and how many a part of it.
pub struct Shares {
    pub whole: usize,
    pub split: usize,
}

/// What each piece gives to a transfer of less than its source holds: of the running sum of the weights so
/// much, rounded down, less what the pieces before it gave. A piece of another holder gives nothing.
pub fn share(pieces: &[[u32; 4]], t: &Transfer, balance: u32, gifts: &mut [u64; PLACES]) -> Shares {
    let (mut sum, mut given) = (0, 0);
    let mut shares = Shares { whole: 0, split: 0 };
    for (p, gift) in pieces.iter().zip(gifts) {
        *gift = 0;
        if p[0] != t.source {
            continue;
        }
        let weight = u64::from(p[3]);
        sum += weight;
        // Neither factor is above TOP.
        let up_to = u64::from(t.weight) * sum / u64::from(balance);
        *gift = up_to - given;
        given = up_to;
        shares.whole += usize::from(*gift == weight);
        shares.split += usize::from(0 < *gift && *gift < weight);
    }
    shares
}

/// The pieces that keep some weight close up, and what is given is laid aside in its order; the answer is
/// the count of each.
pub fn part(
    pieces: &mut [[u32; 4]],
    destination: u32,
    gifts: &[u64; PLACES],
    joining: &mut [[u32; 4]; PLACES],
) -> (usize, usize) {
    let (mut stay, mut given) = (0, 0);
    for place in 0..pieces.len() {
        let [holder, origin, birth, weight] = pieces[place];
        let gift = gifts[place] as u32; // no more than its weight
        joining[given] = [destination, origin, birth, gift];
        given += usize::from(gift > 0);
        pieces[stay] = [holder, origin, birth, weight - gift];
        stay += usize::from(gift < weight);
    }
    (stay, given)
}
