//! Reading a text: line by line, and a fault names its line.

use super::{Text, MOVEMENT};
use crate::clock::{is_moment, Clock, Start};
use crate::sheet::{rules, Sheet, RULES};
use crate::vessels::unknown;
use crate::words::{at_most, number, shown};
use lumchaki::{Refusal, Transfer, MOVEMENTS, NAME_BYTES, VESSELS};

/// What is wrong in a line.
#[derive(Debug, PartialEq, Eq)]
pub struct LineFault {
    /// The line, from 1.
    pub line: usize,
    /// The refusal that a sheet of this text would get, where there is one.
    pub refusal: Option<Refusal>,
    /// What is wrong, in words.
    pub why: String,
}

/// Whether bytes start as a text does: with its rule.
pub fn looks_like(bytes: &[u8]) -> bool {
    let text = String::from_utf8_lossy(bytes);
    let first = statements(&text).next();
    first.is_some_and(|(_, words)| words[0] == "rule")
}

/// Reads a text. Minutes go by its own line `start`, or else by the clock that is given.
pub fn read(bytes: &[u8], clock: &Clock) -> Result<Text, LineFault> {
    let mut reader = Reader {
        clock: *clock,
        ..Reader::default()
    };
    let mut last = 1;
    let text = String::from_utf8_lossy(bytes).replace("\r\n", "\n");
    for (line, words) in statements(&text) {
        last = line;
        let stated = reader.statement(line, &words);
        stated.map_err(|(refusal, why)| LineFault { line, refusal, why })?;
    }
    let ended = reader.end();
    ended.map_err(|(refusal, why)| LineFault {
        line: last,
        refusal,
        why,
    })
}

/// The lines that say something, with their numbers from 1, in words. A carriage return ends a line too.
fn statements(text: &str) -> impl Iterator<Item = (usize, Vec<&str>)> {
    let text = text.strip_prefix('\u{feff}').unwrap_or(text);
    let lines = (1..).zip(text.split(['\n', '\r']));
    let lines = lines.map(|(line, text)| (line, text.split_ascii_whitespace().collect()));
    lines.filter(|(_, words): &(usize, Vec<&str>)| {
        words.first().is_some_and(|w| !w.starts_with('#'))
    })
}

/// What was read so far.
#[derive(Default)]
struct Reader {
    rule: Option<u32>,
    clock: Clock,
    started: bool,
    names: Vec<String>,
    movements: Vec<Transfer>,
    lines: Vec<usize>,
}

/// The refusal, if it has a number, and what is wrong.
type Wrong = (Option<Refusal>, String);

fn wrong(why: impl Into<String>) -> Wrong {
    (None, why.into())
}

fn refused(refusal: Refusal, why: impl Into<String>) -> Wrong {
    (Some(refusal), why.into())
}

impl Reader {
    fn statement(&mut self, line: usize, words: &[&str]) -> Result<(), Wrong> {
        match *words {
            ["rule", word] => self.rule(word),
            ["rule", ..] => Err(wrong("a rule is one number: rule 0")),
            [word, ..] if self.rule.is_none() => Err(no_rule(word)),
            ["start", word] => self.start(word),
            ["start", ..] => Err(wrong("a start is one word: start Mon-05:30")),
            ["vessel", name] => self.vessel(name),
            ["vessel", ..] => Err(wrong(
                "a vessel has one name, without blanks: vessel SILO-1",
            )),
            [minute, from, "->", to, grams, "g"] => {
                self.movement(line, [minute, from, to, grams, "0"])
            }
            [minute, from, "->", to, grams, "g", "age", age] => {
                self.movement(line, [minute, from, to, grams, age])
            }
            _ => Err(wrong(no_line(words))),
        }
    }

    fn rule(&mut self, word: &str) -> Result<(), Wrong> {
        if self.rule.is_some() {
            return Err(wrong("the rule stands twice"));
        }
        let known = || format!("the rules are {}", rules());
        let rule = at_most(word).map_err(|why| wrong(format!("{why}; {}", known())))?;
        if rule as usize >= RULES.len() {
            return Err(refused(Refusal::RuleUnknown, known()));
        }
        self.rule = Some(rule);
        Ok(())
    }

    fn start(&mut self, word: &str) -> Result<(), Wrong> {
        if self.started || !self.movements.is_empty() {
            return Err(wrong("start stands once, before the movements"));
        }
        let start = Start::read(word).map_err(wrong)?;
        match self.clock.start {
            Some(given) if given != start => {
                let (here, given) = (start.show(), given.show());
                return Err(wrong(format!(
                    "start is {here} here and {given} in --start"
                )));
            }
            _ => self.clock.start = Some(start),
        }
        self.started = true;
        Ok(())
    }

    fn vessel(&mut self, name: &str) -> Result<(), Wrong> {
        let visible = name.bytes().all(|b| (b'!'..=b'~').contains(&b));
        if !visible || name.len() > NAME_BYTES {
            let why = "a name is 1 to 8 letters, digits and signs of ASCII";
            return Err(refused(Refusal::Name, format!("{}: {why}", shown(name))));
        }
        if self.names.iter().any(|n| n == name) {
            return Err(refused(
                Refusal::Name,
                format!("{name}: the name stands twice"),
            ));
        }
        if self.names.len() == VESSELS {
            return Err(refused(
                Refusal::VesselCount,
                "there are at most 64 vessels",
            ));
        }
        self.names.push(name.to_string());
        Ok(())
    }

    fn movement(&mut self, line: usize, words: [&str; 5]) -> Result<(), Wrong> {
        let [minute, from, to, grams, age] = words;
        if self.movements.len() == MOVEMENTS {
            return Err(refused(
                Refusal::Movements,
                "there are at most 4096 movements",
            ));
        }
        let of = |what: &'static str| move |why| wrong(format!("{what} {why}"));
        let over = format!("age {}: it is at most {} minutes", shown(age), u16::MAX);
        let age = at_most(age).map_err(of("age"))?;
        let vessel = |name: &str| {
            let found = self.names.iter().position(|n| n == name);
            found.ok_or_else(|| {
                let unknown = unknown(&self.names, name);
                let why = format!("{unknown}; a new one has its line above, as: vessel SILO");
                refused(Refusal::NoVessel, why)
            })
        };
        let movement = Transfer {
            source: vessel(from)? as u32,
            destination: vessel(to)? as u32,
            minute: self.clock.read(minute).map_err(wrong)?,
            weight: number(grams).map_err(of("weight"))?,
            age: u16::try_from(age).map_err(|_| refused(Refusal::AgeOver, over))?,
        };
        self.movements.push(movement);
        self.lines.push(line);
        Ok(())
    }

    fn end(self) -> Result<Text, Wrong> {
        let rule = self
            .rule
            .ok_or_else(|| wrong("there is no rule, as: rule 0"))?;
        if self.names.is_empty() {
            return Err(refused(
                Refusal::VesselCount,
                "there is no vessel, as: vessel SILO",
            ));
        }
        Ok(Text {
            sheet: Sheet {
                rule,
                names: self.names,
                movements: self.movements,
            },
            lines: self.lines,
            clock: self.clock,
        })
    }
}

/// What to say of a text whose first word is this one.
fn no_rule(word: &str) -> Wrong {
    wrong(match word.contains('\0') {
        true => "this is no text of ASCII or UTF-8: save it as UTF-8".to_string(),
        false => format!(
            "the rule stands first, as: rule 0. The rules are {}",
            rules()
        ),
    })
}

/// What to say of a line that has no form: the likeliest slip, and the forms.
fn no_line(words: &[&str]) -> String {
    let first = words.first().copied().unwrap_or("");
    if !first.starts_with(|c: char| c.is_ascii_digit()) && !is_moment(first) {
        return format!("a line is: rule N, start DAY, vessel NAME, or {MOVEMENT}");
    }
    match words.iter().find_map(|word| slip(word)) {
        Some(slip) => format!("{slip}; a movement is {MOVEMENT}"),
        None => format!("a movement is {MOVEMENT}"),
    }
}

fn slip(word: &str) -> Option<&'static str> {
    let grams = |word: &str| word.strip_suffix('g').is_some_and(|n| number(n).is_ok());
    match word {
        "->" => None,
        _ if word.ends_with("kg") => Some("weights are in grams"),
        _ if grams(word) => Some("a blank stands before g"),
        _ if word.contains(['>', '→']) => Some("the arrow is -> with blanks around it"),
        _ if word.starts_with('#') => Some("a remark has a line of its own"),
        _ => None,
    }
}
