//! What the weigh book alone says of a list of calls.

use super::covered::{Covered, FORECASTS};
use super::followed::Ended;
use compare::Call;
use second::WeighBook;

/// What the weigh book alone, fed every transfer, lift and tip, says of each. It knows no rule, and is fed
/// no setting of one. Behind it which call it is, and of a transfer whether the weigh book's scale is
/// loaded.
fn forecast(vessels: u32, list: &[Call]) -> Vec<(u32, &'static str)> {
    let mut weighed = WeighBook::new(vessels);
    let feed = |call: &Call| match call {
        Call::Move(transfer) if weighed.scale > 0 => Some((weighed.feed(*transfer), "beside")),
        Call::Move(transfer) => Some((weighed.feed(*transfer), "transfer")),
        Call::Lift(lift) => Some((weighed.feed_lift(*lift), "lift")),
        Call::Tip(tip) => Some((weighed.feed_tip(*tip), "tip")),
        _ => None,
    };
    list.iter().filter_map(feed).collect()
}

/// The forecast, where it is owed: a table of at least 4 numbers has a place for each transfer and
/// lift, and nothing is picked by rule 4. Else it holds up to the first 11. The list was followed under some
/// rules, with and without settings between its calls.
pub fn check_forecast(
    vessels: u32,
    length: usize,
    list: &[Call],
    all: &[Ended],
    covered: &mut Covered,
) {
    let forecast = forecast(vessels, list);
    let counted = forecast.iter().filter(|(_, call)| *call != "tip").count();
    if length < 4 {
        return;
    }
    let expected = || forecast.iter().map(|&(number, _)| number);
    let owed = counted <= length / 4;
    for Ended {
        numbers, stirred, ..
    } in all
    {
        let full = numbers.iter().position(|&number| number == 11);
        let count = full.unwrap_or(forecast.len());
        assert!(full.is_none() || !owed || *stirred, "{list:?}");
        covered.stirred += u32::from(owed && *stirred);
        assert!(
            numbers[..count].iter().copied().eq(expected().take(count)),
            "{list:?}"
        );
    }
    if !owed {
        return;
    }
    covered.forecasts += 1;
    covered.age_forecasts += u32::from(expected().any(|n| n == 21));
    for (count, said) in covered.forecasts_of.iter_mut().zip(&FORECASTS) {
        *count += u32::from(forecast.contains(said));
    }
}
