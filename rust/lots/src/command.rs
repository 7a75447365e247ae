//! The command line, taken apart.

use crate::clock::{Clock, Start};
use crate::sheet::Cut;
use crate::words::{number, shown};
use std::ffi::OsString;
use std::path::Path;

/// What is asked of a sheet.
#[derive(Clone, Debug)]
pub enum Verb {
    /// The pieces as numbers.
    List,
    /// What is in these vessels, or in all.
    Whose(Vec<String>),
    /// Where an origin's flour is, born in a span or ever.
    Where(String, Option<(String, String)>),
    /// Vessels by origins.
    Whole {
        /// For a spreadsheet, not for people.
        csv: bool,
    },
    /// Fit or not, and where.
    Check,
    /// The sheet as text.
    Text,
    /// A text as a sheet.
    Sheet,
    /// The page.
    Page,
}

/// A command.
#[derive(Clone, Debug)]
pub struct Command {
    /// What is asked.
    pub verb: Verb,
    /// The file, or `-`.
    pub file: OsString,
    /// Whether the file stands alone, without a command's word.
    pub bare: bool,
    /// How much of the sheet is looked at.
    pub cut: Cut,
    /// How minutes are shown and read.
    pub clock: Clock,
}

impl Verb {
    /// Whether the answer is for people to read and keep.
    pub fn is_for_people(&self) -> bool {
        matches!(
            self,
            Verb::Whose(_) | Verb::Where(..) | Verb::Whole { csv: false }
        )
    }
}

impl Command {
    /// The file as messages show it.
    pub fn file_shown(&self) -> String {
        shown(&self.file.to_string_lossy())
    }

    /// The name of the sheet, without its folders.
    pub fn title(&self) -> String {
        let name = Path::new(&self.file).file_name().unwrap_or(&self.file);
        match name.to_str() {
            Some("-") => "standard input".to_string(),
            _ => name.to_string_lossy().into_owned(),
        }
    }
}

/// The options, and the words beside them.
#[derive(Default)]
struct Line {
    words: Vec<OsString>,
    cut: Cut,
    clock: Clock,
    csv: bool,
    help: bool,
}

/// Takes a command line apart. None: the usage is asked for.
pub fn parse(arguments: &[OsString]) -> Result<Option<Command>, String> {
    let line = Line::read(arguments)?;
    if line.help || arguments.is_empty() {
        return Ok(None);
    }
    let (first, rest) = line.words.split_first().ok_or("no sheet is named")?;
    let word = first.to_string_lossy();
    if ["help", "-h"].contains(&word.as_ref()) {
        return Ok(None);
    }
    let named = verb(&word, rest, line.csv)?;
    let bare = named.is_none();
    if bare && !rest.is_empty() {
        return Err(format!("{}: no such command", shown(&word)));
    }
    let (verb, file) = named.unwrap_or((Verb::List, first.clone()));
    if line.csv && !matches!(verb, Verb::Whole { .. }) {
        return Err("--csv goes with whole alone".to_string());
    }
    Ok(Some(Command {
        verb,
        file,
        bare,
        cut: line.cut,
        clock: line.clock,
    }))
}

/// The verb of a command's word and its file; none for a word that is no command.
fn verb(word: &str, rest: &[OsString], csv: bool) -> Result<Option<(Verb, OsString)>, String> {
    let (file, rest) = match rest.split_first() {
        Some((file, rest)) => (Some(file), rest),
        None => (None, rest),
    };
    let mut words = rest.iter().map(|w| w.to_string_lossy().into_owned());
    let verb = match word {
        "list" => Verb::List,
        "whose" => Verb::Whose(words.by_ref().collect()),
        "where" => where_of(&mut words)?,
        "whole" => Verb::Whole { csv },
        "check" => Verb::Check,
        "text" => Verb::Text,
        "sheet" => Verb::Sheet,
        "page" => Verb::Page,
        _ => return Ok(None),
    };
    let kind = if word == "sheet" { "text" } else { "sheet" };
    let file = file.ok_or_else(|| format!("{word}: no {kind} is named"))?;
    match words.next() {
        Some(word) => Err(format!("{}: one word too many", shown(&word))),
        None => Ok(Some((verb, file.clone()))),
    }
}

/// An origin, and a span of two words or none.
fn where_of(words: &mut impl Iterator<Item = String>) -> Result<Verb, String> {
    let origin = words
        .next()
        .ok_or("where: a sheet and an origin are to be named")?;
    match (words.next(), words.next()) {
        (Some(from), Some(to)) => Ok(Verb::Where(origin, Some((from, to)))),
        (None, _) => Ok(Verb::Where(origin, None)),
        (Some(_), None) => Err("where: a span has two ends, FROM and TO".to_string()),
    }
}

impl Line {
    fn read(arguments: &[OsString]) -> Result<Line, String> {
        let mut line = Line::default();
        let mut arguments = arguments.iter();
        while let Some(argument) = arguments.next() {
            let option = argument.to_string_lossy();
            if option == "--" {
                line.words.extend(arguments.by_ref().cloned());
            } else if let Some(option) = option.strip_prefix("--") {
                let (name, value) = match option.split_once('=') {
                    Some((name, value)) => (name, Some(value.to_string())),
                    None => (option, None),
                };
                let next = || arguments.next().map(|a| a.to_string_lossy().into_owned());
                line.option(name, value, next)?;
            } else {
                line.words.push(argument.clone());
            }
        }
        Ok(line)
    }

    /// Takes an option, whose value stands behind `=` or is the next argument.
    fn option(
        &mut self,
        name: &str,
        given: Option<String>,
        next: impl FnOnce() -> Option<String>,
    ) -> Result<(), String> {
        match name {
            "csv" | "help" if given.is_some() => return Err(format!("--{name} takes no value")),
            "csv" => self.csv = true,
            "help" => self.help = true,
            "until" | "movements" | "start" => {
                let value = given.or_else(next);
                let value = value.ok_or_else(|| format!("--{name} has no value"))?;
                let before = match name {
                    "until" => self.cut.until.replace(value).is_some(),
                    "movements" => self.cut.movements.replace(number(&value)?).is_some(),
                    _ => self.clock.start.replace(Start::read(&value)?).is_some(),
                };
                if before {
                    return Err(format!("--{name} stands twice"));
                }
            }
            _ => return Err(format!("--{}: no such option", shown(name))),
        }
        Ok(())
    }
}
