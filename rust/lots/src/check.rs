//! Fit or not, and where. The number is the library's; the place is looked for once it is known.

use crate::clock::Clock;
use crate::ledger::Ledger;
use crate::sheet::{Cut, RULES};
use crate::text;
use crate::tool::MOST;
use lumchaki::{
    Refusal, Stop, Transfer, MOVEMENT_BYTES, NAME_BYTES, SHEET_HEADER as HEADER, VESSELS,
};

/// The fields of the header by the byte where they start.
const RULE: usize = 4;
const VESSEL_COUNT: usize = 6;
const MOVEMENT_COUNT: usize = 8;

/// What is said of a sheet that can be read, with the line of the movement where it stops, if it does.
pub fn report(
    ledger: &Ledger,
    clock: &Clock,
    cut: &Cut,
    stop: Option<(Stop, usize)>,
) -> Result<String, Refusal> {
    let (sheet, head) = (&ledger.sheet, &ledger.head);
    let verdict = match stop {
        None => "fit\n".to_string(),
        Some((stop, line)) => {
            let place = stopped(ledger, clock, &stop, line);
            format!("not fit: {}\n{place}", stop.refusal)
        }
    };
    let (rule, accepted, movements) = (sheet.rule, head.accepted, sheet.movements.len());
    let cut = cut.notes().into_iter();
    let cut: String = cut.map(|note| format!("  cut        {note}\n")).collect();
    let lines = [
        format!("  rule       {rule}, {}\n", RULES[rule as usize]),
        format!("  vessels    {}\n", head.vessels),
        format!("  accepted   {accepted} of {movements} movements\n"),
        cut,
        format!("  minutes    {}\n", ledger.minutes(clock)),
        format!("  pieces     {}\n", head.pieces),
        format!("  even       {}\n", ledger.even),
    ];
    Ok(verdict + &lines.concat() + &born(ledger)?)
}

/// What was born in each origin, and whether it had received flour before: then it gave more than it had, which may
/// be a slip of the sheet.
fn born(ledger: &Ledger) -> Result<String, Refusal> {
    let accepted = &ledger.sheet.movements[..ledger.head.accepted as usize];
    let overdrawn = overdrawn(accepted);
    let line = |(origin, weight): (u32, u64)| {
        let more = match overdrawn[origin as usize] {
            true => ", more than it had received",
            false => "",
        };
        format!("  born       {} {weight} g{more}\n", ledger.name(origin))
    };
    Ok(ledger.origins()?.into_iter().map(line).collect())
}

/// The vessels that received flour and gave more than they had later on.
fn overdrawn(accepted: &[Transfer]) -> [bool; VESSELS] {
    let mut balances = [0_u64; VESSELS];
    let [mut received, mut overdrawn] = [[false; VESSELS]; 2];
    for m in accepted {
        let (source, destination) = (m.source as usize, m.destination as usize);
        let weight = u64::from(m.weight);
        overdrawn[source] |= received[source] && weight > balances[source];
        balances[source] = balances[source].saturating_sub(weight);
        balances[destination] += weight;
        received[destination] = true;
    }
    overdrawn
}

/// Where a sheet is that was refused when it was read: field, vessel or movement, and what it has there.
pub fn place(bytes: &[u8], refusal: Refusal) -> String {
    let found = match refusal {
        Refusal::NoSheet => Some(no_sheet(bytes)),
        Refusal::RuleUnknown => counted(bytes, "rule", RULE, 2, "0 to 3"),
        Refusal::VesselCount => counted(bytes, "count of vessels", VESSEL_COUNT, 2, "1 to 64"),
        Refusal::Movements => counted(bytes, "count of movements", MOVEMENT_COUNT, 4, "0 to 4096"),
        Refusal::Layout => layout(bytes),
        Refusal::Name => name(bytes),
        Refusal::NoVessel => movement(bytes),
        _ => None,
    };
    found.unwrap_or_default()
}

/// A number of these bytes, as the sheet has it.
fn number(bytes: &[u8], at: usize, size: usize) -> Option<u32> {
    let field = bytes.get(at..at + size)?;
    Some(field.iter().rev().fold(0, |n, &b| n << 8 | u32::from(b)))
}

fn no_sheet(bytes: &[u8]) -> String {
    let text = match text::looks_like(bytes) {
        true => "; it looks like a text: lots sheet TEXT >SHEET",
        false => "",
    };
    match bytes.len() {
        0 => "it is empty".to_string(),
        length if length < HEADER => {
            format!("it has {length} bytes, and a sheet has at least {HEADER}{text}")
        }
        _ => {
            let mark = bytes[..4].escape_ascii();
            format!("field mark, bytes 0 to 3: \"{mark}\", not \"PROV\"{text}")
        }
    }
}

fn counted(bytes: &[u8], field: &str, at: usize, size: usize, range: &str) -> Option<String> {
    let has = number(bytes, at, size)?;
    let last = at + size - 1;
    Some(format!(
        "field {field}, bytes {at} to {last}: {has}, not {range}"
    ))
}

fn layout(bytes: &[u8]) -> Option<String> {
    let vessels = number(bytes, VESSEL_COUNT, 2)? as usize;
    let movements = number(bytes, MOVEMENT_COUNT, 4)? as usize;
    let names_end = HEADER + NAME_BYTES * vessels;
    let length = names_end + MOVEMENT_BYTES * movements;
    let fields = [
        ("offset of the names", 12, HEADER),
        ("offset of the movements", 16, names_end),
        ("length", 20, length),
    ];
    for (field, at, due) in fields {
        if number(bytes, at, 4)? as usize != due {
            return counted(bytes, field, at, 4, &due.to_string());
        }
    }
    let more = if bytes.len() > MOST { " or more" } else { "" };
    Some(format!(
        "it has {} bytes{more}, and {vessels} vessels and {movements} movements are {length}",
        bytes.len()
    ))
}

/// The first name that is ill-formed or that an earlier vessel has.
fn name(bytes: &[u8]) -> Option<String> {
    let vessels = number(bytes, VESSEL_COUNT, 2)? as usize;
    let names = bytes.get(HEADER..HEADER + NAME_BYTES * vessels)?;
    let names: Vec<&[u8]> = names.chunks_exact(NAME_BYTES).collect();
    (0..vessels).find_map(|vessel| {
        let earlier = names[..vessel].iter().position(|n| *n == names[vessel]);
        let twice = || earlier.map(|other| format!("the same as vessel {other}'s"));
        let why = ill_formed(names[vessel]).or_else(twice)?;
        let (at, shown) = (HEADER + NAME_BYTES * vessel, names[vessel].escape_ascii());
        let last = at + NAME_BYTES - 1;
        Some(format!(
            "vessel {vessel}, its name, bytes {at} to {last}: \"{shown}\", {why}"
        ))
    })
}

fn ill_formed(name: &[u8]) -> Option<String> {
    let end = name.iter().position(|&b| b == 0).unwrap_or(name.len());
    if end == 0 {
        return Some("no letter at its start".to_string());
    }
    let (letters, zeros) = name.split_at(end);
    if let Some(at) = letters.iter().position(|b| !(b'!'..=b'~').contains(b)) {
        return Some(format!(
            "{:02x} hexadecimal at {at} is no visible character",
            letters[at]
        ));
    }
    let after = zeros.iter().position(|&b| b != 0)?;
    Some(format!(
        "behind its end there is {:02x} hexadecimal",
        zeros[after]
    ))
}

/// The first movement of a vessel that is not there.
fn movement(bytes: &[u8]) -> Option<String> {
    let vessels = number(bytes, VESSEL_COUNT, 2)?;
    let movements = number(bytes, MOVEMENT_COUNT, 4)? as usize;
    let first = HEADER + NAME_BYTES * vessels as usize;
    (0..movements).find_map(|index| {
        let at = first + MOVEMENT_BYTES * index;
        ["source", "destination"].into_iter().zip(at..).find_map(|(field, at)| {
            let has = number(bytes, at, 1)?;
            let off = || format!("movement {index}, its {field}, byte {at}: {has}, and the vessels are {vessels}");
            (has >= vessels).then(off)
        })
    })
}

/// The movement where a run stopped, and what it met there.
pub fn because(ledger: &Ledger, clock: &Clock, stop: &Stop) -> (String, String) {
    let m = &ledger.sheet.movements[stop.index as usize];
    let destination = ledger.name(m.destination);
    let met = match stop.refusal {
        Refusal::SameVessel => format!("{destination} is source and destination"),
        Refusal::NoWeight => "its weight is 0".to_string(),
        Refusal::ClockBack => {
            let [own, last] = [m.minute, ledger.head.last].map(|minute| match clock.start {
                Some(_) => format!("{} ({minute})", clock.show(minute)),
                None => minute.to_string(),
            });
            format!("its minute, {own}, is before the last one, {last}")
        }
        Refusal::BeforeTime => {
            let (age, minute) = (m.age, m.minute);
            format!("its age, {age}, is above its minute, {minute}; let minute 0 be earlier")
        }
        Refusal::Overfull => {
            let (balance, most) = (ledger.balance(m.destination), u32::MAX);
            format!("{destination} holds {balance} g, and a vessel holds at most {most}")
        }
        refusal => refusal.word().to_string(),
    };
    let shown = text::movement(&ledger.sheet, clock, m, &text::Widths::default());
    (shown, met)
}

/// Where a run stopped, for people.
fn stopped(ledger: &Ledger, clock: &Clock, stop: &Stop, line: usize) -> String {
    let (movement, met) = because(ledger, clock, stop);
    let names = NAME_BYTES * ledger.sheet.names.len();
    let at = HEADER + names + MOVEMENT_BYTES * stop.index as usize;
    let last = at + MOVEMENT_BYTES - 1;
    [
        format!(
            "  movement   {} (the first is 0), bytes {at} to {last}\n",
            stop.index
        ),
        format!("  line       {line} of `lots text`: {movement}\n"),
        format!("  because    {met}\n"),
    ]
    .concat()
}
