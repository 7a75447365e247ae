//! A command, from its file to its answer.

use crate::clock::Clock;
use crate::command::{Command, Verb};
use crate::ledger::Ledger;
use crate::sheet::Sheet;
use crate::text::{LineFault, Text};
use crate::{check, listing, page, reports, text, vessels, Answer};
use lumchaki::{Refusal, Stop};
use std::ffi::OsStr;
use std::fs::File;
use std::io::{Error, ErrorKind, Read};

/// No more of a file is looked at: a sheet is refused far below it, and no text needs it.
pub const MOST: usize = 16 << 20;

/// Why there is no answer.
pub enum Fault {
    /// Wrong use, with the usage.
    Use(String),
    /// A file that cannot be read.
    File(String),
    /// The sheet, the text or the question is refused.
    Refused(String),
    /// A part of the tool is not there.
    Missing(String),
}

impl From<Refusal> for Fault {
    fn from(refusal: Refusal) -> Fault {
        Fault::Refused(refusal.to_string())
    }
}

/// Carries out a command.
pub fn carry_out(command: &Command, input: &mut dyn Read) -> Result<Answer, Fault> {
    let given = bytes(&command.file, input).map_err(|error| unread(command, &error))?;
    let mut text = match command.verb {
        Verb::Sheet => text_of(command, &given)?,
        _ => match Sheet::read(&given) {
            Ok(sheet) => Text::of(sheet, &command.clock),
            Err(refusal) => return refused(command, &given, refusal),
        },
    };
    let clock = text.clock;
    text.sheet.cut(&command.cut, &clock).map_err(Fault::Use)?;
    let ledger = Ledger::of(text.sheet)?;
    let stop = ledger
        .stop
        .map(|stop| (stop, text.lines[stop.index as usize]));
    let mut out = notes(command, ledger.stop).into_bytes();
    out.extend(answer_to(command, &ledger, &clock, stop)?);
    let err = stop.map(|(stop, line)| stopped(command, &ledger, &clock, &stop, line));
    Ok(Answer {
        status: u8::from(err.is_some()),
        out,
        sheet: matches!(command.verb, Verb::Sheet),
        err: err.unwrap_or_default(),
    })
}

/// What a command shows of a ledger. A stop has its line in the text.
fn answer_to(
    command: &Command,
    ledger: &Ledger,
    clock: &Clock,
    stop: Option<(Stop, usize)>,
) -> Result<Vec<u8>, Fault> {
    let text = match &command.verb {
        Verb::List => return listing::list(&ledger.sheet.bytes()?).map_err(Fault::Missing),
        Verb::Sheet => return Ok(ledger.sheet.bytes()?),
        Verb::Whose(words) => whose(ledger, words, clock)?,
        Verb::Where(origin, span) => recall(ledger, origin, span.as_ref(), clock)?,
        Verb::Whole { csv: true } => reports::csv(ledger)?,
        Verb::Whole { csv: false } => reports::whole(ledger)?,
        Verb::Check => check::report(ledger, clock, &command.cut, stop)?,
        Verb::Text => text::write(&ledger.sheet, clock),
        Verb::Page => page::page(&command.title(), &command.cut, ledger, clock)?,
    };
    Ok(text.into_bytes())
}

/// The first lines of an answer that people may keep: it must not look as if the sheet had been followed to its end.
fn notes(command: &Command, stop: Option<Stop>) -> String {
    if !command.verb.is_for_people() {
        return String::new();
    }
    let cut = command.cut.notes().into_iter();
    let cut = cut.map(|note| format!("as it stood with {note}\n"));
    let stop = stop.map(|Stop { index, refusal }| {
        let place = format!("before movement {index} (the first is 0)");
        format!("as it stood {place}, where the sheet stops: {refusal}\n")
    });
    cut.chain(stop).collect()
}

/// What is said of the movement where a sheet stops. The line is that of the text given, or of the one that
/// `lots text` would print.
fn stopped(command: &Command, ledger: &Ledger, clock: &Clock, stop: &Stop, line: usize) -> String {
    let Stop { index, refusal } = stop;
    let file = command.file_shown();
    let (_, why) = check::because(ledger, clock, stop);
    let place = match command.verb {
        Verb::Sheet => format!("line {line}: stopped at movement {index}"),
        _ => format!("stopped at movement {index}, line {line} of `lots text`"),
    };
    format!("lots: {file}: {place}: {refusal}: {why}\n")
}

/// The bytes of a file or of standard input, at most one more than are looked at.
fn bytes(file: &OsStr, input: &mut dyn Read) -> Result<Vec<u8>, Error> {
    let (most, mut bytes) = (MOST as u64 + 1, Vec::new());
    match file == "-" {
        true => input.take(most).read_to_end(&mut bytes)?,
        false => File::open(file)?.take(most).read_to_end(&mut bytes)?,
    };
    Ok(bytes)
}

/// What to say of a file that cannot be read. A word alone may be a command that there is not.
fn unread(command: &Command, error: &Error) -> Fault {
    let why = format!("{}: {error}", command.file_shown());
    match command.verb {
        _ if command.bare && error.kind() == ErrorKind::NotFound => {
            Fault::Use(format!("no such command, and {why}"))
        }
        Verb::Whose(_) | Verb::Where(..) => Fault::File(format!("{why} (the sheet comes first)")),
        _ => Fault::File(why),
    }
}

/// What is in the vessels named, or in all.
fn whose(ledger: &Ledger, words: &[String], clock: &Clock) -> Result<String, Fault> {
    let named = words.iter().map(|word| vessel(ledger, word));
    let mut vessels = named.collect::<Result<Vec<u32>, Fault>>()?;
    if vessels.is_empty() {
        vessels.extend(ledger.vessels());
    }
    Ok(reports::whose(ledger, &vessels, clock)?)
}

/// Where flour of an origin is. Only a span that ends before it starts is refused.
fn recall(
    ledger: &Ledger,
    origin: &str,
    span: Option<&(String, String)>,
    clock: &Clock,
) -> Result<String, Fault> {
    let minute = |word: &str| clock.read(word).map_err(Fault::Use);
    let origin = vessel(ledger, origin)?;
    let Some((first, last)) = span else {
        return Ok(reports::recall(ledger, origin, None, clock)?);
    };
    let span = (minute(first)?, minute(last)?);
    let answer = reports::recall(ledger, origin, Some(span), clock);
    answer.map_err(|refusal| {
        let (from, to) = span;
        Fault::Refused(format!(
            "{refusal}: {first} is minute {from}, and {last} is minute {to}"
        ))
    })
}

/// The vessel that a word names.
fn vessel(ledger: &Ledger, word: &str) -> Result<u32, Fault> {
    let names = &ledger.sheet.names;
    let unknown = || format!("{}: {}", Refusal::NoVessel, vessels::unknown(names, word));
    vessels::find(names, word).ok_or_else(|| Fault::Refused(unknown()))
}

/// The answer to a sheet that cannot be read: the listing has its number, the check says where.
fn refused(command: &Command, given: &[u8], refusal: Refusal) -> Result<Answer, Fault> {
    let place = check::place(given, refusal);
    let file = command.file_shown();
    let (out, err) = match command.verb {
        Verb::Check => {
            let out = format!("not fit: {refusal}\n  {place}\n");
            (out.into(), format!("lots: {file}: {refusal}\n"))
        }
        Verb::List => {
            let out = listing::list(given).map_err(Fault::Missing)?;
            (out, format!("lots: {file}: {refusal}: {place}\n"))
        }
        _ => (Vec::new(), format!("lots: {file}: {refusal}: {place}\n")),
    };
    Ok(Answer {
        status: 1,
        out,
        err,
        ..Answer::default()
    })
}

/// A text that was read, or the line of its fault.
fn text_of(command: &Command, given: &[u8]) -> Result<Text, Fault> {
    let file = command.file_shown();
    if given.len() > MOST {
        return Err(Fault::File(format!("{file}: longer than {MOST} bytes")));
    }
    text::read(given, &command.clock).map_err(|LineFault { line, refusal, why }| {
        Fault::Refused(match refusal {
            Some(refusal) => format!("{file}: line {line}: {refusal}: {why}"),
            None => format!("{file}: line {line}: {why}"),
        })
    })
}
