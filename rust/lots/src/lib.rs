//! `lots`: the tool over the proved library. It reads a sheet, has it run, and shows what came of it to people,
//! spreadsheets and browsers. The weights are the library's; nothing here splits a lot.
//!
//! Data flows one way: bytes → `sheet` → `ledger` → `reports`, `text`, `check` or `page`; `tool` takes a `command`
//! along it. `clock` has the minutes, `vessels` the names, `words` what messages show of what was given.

#![forbid(unsafe_code)]

mod check;
pub mod clock;
mod command;
mod ledger;
mod listing;
mod page;
mod reports;
mod sheet;
mod text;
mod tool;
mod vessels;
mod words;

use std::ffi::OsString;
use std::io::Read;
use tool::Fault;

/// How the tool is used.
pub const USAGE: &str = include_str!("usage.txt");

/// What the tool gives back.
#[derive(Debug, Default, PartialEq, Eq)]
pub struct Answer {
    /// The exit status: 0 fit, 1 refused or stopped, 2 wrong use, 3 a part of the tool is not there.
    pub status: u8,
    /// For standard output.
    pub out: Vec<u8>,
    /// Whether that is a sheet, which no terminal shows.
    pub sheet: bool,
    /// For standard error.
    pub err: String,
}

/// The answer to a command line. Standard input is read where a file is `-`.
pub fn answer(arguments: &[OsString], input: &mut dyn Read) -> Answer {
    let answered = match command::parse(arguments) {
        Ok(Some(command)) => tool::carry_out(&command, input),
        Ok(None) => Ok(Answer {
            out: USAGE.into(),
            ..Answer::default()
        }),
        Err(why) => Err(Fault::Use(why)),
    };
    answered.unwrap_or_else(|fault| {
        let (status, usage, why) = match fault {
            Fault::Use(why) => (2, format!("{USAGE}\n"), why),
            Fault::File(why) => (2, String::new(), why),
            Fault::Refused(why) => (1, String::new(), why),
            Fault::Missing(why) => (3, String::new(), why),
        };
        Answer {
            status,
            err: format!("{usage}lots: {why}\n"),
            ..Answer::default()
        }
    })
}
