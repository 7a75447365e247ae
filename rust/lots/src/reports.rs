//! The answers for people and spreadsheets: whose, where, whole.

use crate::clock::Clock;
use crate::ledger::{percent, total, Ledger, Share};
use crate::sheet::RULES;
use lumchaki::Refusal;

/// A line of names is not longer than this, where more than one name stands on it.
const LINE: usize = 78;

/// What is in each of these vessels: its weight, and by origin the weight, the share and the births.
pub fn whose(ledger: &Ledger, vessels: &[u32], clock: &Clock) -> Result<String, Refusal> {
    let mut text = String::new();
    for &vessel in vessels {
        let balance = ledger.balance(vessel);
        let name = ledger.name(vessel);
        if balance == 0 {
            text += &format!("{name:8} {:>12}\n", "empty");
            continue;
        }
        text += &format!("{name:8} {balance:12} g\n");
        for share in ledger.held(vessel)? {
            text += &line(ledger, share.origin, &share, clock);
        }
    }
    Ok(text)
}

/// The vessels that hold flour of an origin born in a span, the total, and the vessels that are clear.
pub fn recall(
    ledger: &Ledger,
    origin: u32,
    span: Option<(u32, u32)>,
    clock: &Clock,
) -> Result<String, Refusal> {
    let hit = ledger.spread(origin, span.unwrap_or((0, u32::MAX)))?;
    let born = span.map_or("at any time".to_string(), |span| clock.show_span(span));
    let rule = RULES[ledger.head.rule as usize];
    let mut text = format!("flour of {}, born {born}; {rule}\n", ledger.name(origin));
    for share in &hit {
        text += &line(ledger, share.holder, share, clock);
    }
    if hit.is_empty() {
        text += &nowhere(ledger, origin, clock)?;
    }
    let (sum, count, vessels) = (total(&hit), hit.len(), ledger.head.vessels);
    text += &format!("total    {sum:12} g in {count} of {vessels} vessels\n");
    let clear = |v: &u32| hit.iter().all(|share| share.holder != *v);
    let clear: Vec<&str> = ledger
        .vessels()
        .filter(clear)
        .map(|v| ledger.name(v))
        .collect();
    text += &match clear.is_empty() {
        true => "no vessel is clear\n".to_string(),
        false => wrapped("clear", &clear),
    };
    Ok(text)
}

/// What there is in place of flour that is nowhere: a slip in the span or the origin looks like a recall of nothing.
fn nowhere(ledger: &Ledger, origin: u32, clock: &Clock) -> Result<String, Refusal> {
    let name = ledger.name(origin);
    if let Some(births) = ledger.births(|p| p.origin == origin) {
        let born = clock.show_span(births);
        return Ok(format!(
            "  none: the flour of {name} that is there was born {born}\n"
        ));
    }
    let origins = ledger.origins()?;
    let names: Vec<&str> = origins
        .iter()
        .map(|&(origin, _)| ledger.name(origin))
        .collect();
    Ok(match names.is_empty() {
        true => format!("  none: no flour was born in {name}, nor anywhere\n"),
        false => wrapped(
            &format!("  none: no flour was born in {name}, but in"),
            &names,
        ),
    })
}

/// A share under the name of its holder or its origin. The percentage is of what is in the holder.
fn line(ledger: &Ledger, vessel: u32, share: &Share, clock: &Clock) -> String {
    let name = ledger.name(vessel);
    let part = percent(share.weight, ledger.balance(share.holder));
    let born = clock.show_span(share.births);
    format!("  {name:8} {:10} g {part:>8}  born {born}\n", share.weight)
}

/// Names behind a word, on as many lines as they need.
fn wrapped(word: &str, names: &[&str]) -> String {
    let mut text = word.to_string();
    let mut length = text.len();
    for name in names {
        if length + 1 + name.len() > LINE {
            text += "\n    ";
            length = 4;
        }
        text += " ";
        text += name;
        length += 1 + name.len();
    }
    text + "\n"
}

/// Vessels by origins for people: origins whose flour is nowhere have no column, and 0 is a dot.
pub fn whole(ledger: &Ledger) -> Result<String, Refusal> {
    let report = ledger.whole()?;
    let mut origins = ledger.origins()?;
    origins.sort_unstable();
    let cell = |weight: u64| match weight {
        0 => ".".to_string(),
        _ => weight.to_string(),
    };
    let line = |word: &str, cells: &dyn Fn(u32, u64) -> String, last: &str| {
        let mut text = format!("{word:8}");
        for &(origin, sum) in &origins {
            let width = ledger.name(origin).len().max(cell(sum).len());
            text += &format!("  {:>width$}", cells(origin, sum));
        }
        format!("{text}  {last:>12}\n")
    };
    let mut text = line("", &|origin, _| ledger.name(origin).to_string(), "total");
    let rows = report.chunks_exact(ledger.sheet.names.len());
    for (vessel, row) in ledger.vessels().zip(rows) {
        let balance = cell(ledger.balance(vessel).into());
        let weight = |origin, _| cell(row[origin as usize].into());
        text += &line(ledger.name(vessel), &weight, &balance);
    }
    let total = cell(origins.iter().map(|&(_, sum)| sum).sum());
    text += &line("total", &|_, sum| cell(sum), &total);
    Ok(text)
}

/// Vessels by origins for a spreadsheet: a line of origins, then a line for each vessel.
pub fn csv(ledger: &Ledger) -> Result<String, Refusal> {
    let report = ledger.whole()?;
    let mut text = "vessel".to_string();
    for name in &ledger.sheet.names {
        text += &format!(",{}", quoted(name));
    }
    text += "\n";
    for (name, row) in ledger
        .sheet
        .names
        .iter()
        .zip(report.chunks_exact(ledger.sheet.names.len()))
    {
        text += &quoted(name);
        for weight in row {
            text += &format!(",{weight}");
        }
        text += "\n";
    }
    Ok(text)
}

/// A field of a line with commas: in quotes where it has to be, as RFC 4180 has it.
fn quoted(field: &str) -> String {
    if field.contains(['"', ',']) {
        return format!("\"{}\"", field.replace('"', "\"\""));
    }
    field.to_string()
}
