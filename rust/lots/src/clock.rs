//! Minutes as people write them: a number, or a weekday and a time where it is known when minute 0 was.
//! A sheet does not say when that was, so it is never guessed.

use crate::words::{number, shown};

const DAYS: [&str; 7] = ["Mon", "Tue", "Wed", "Thu", "Fri", "Sat", "Sun"];
/// What is said of a time that has no weekday of these.
const NO_WEEKDAY: &str = "a time has its weekday, one of Mon Tue Wed Thu Fri Sat Sun, as Tue-06:00";
const HOUR: u64 = 60;
const DAY: u64 = 24 * HOUR;

/// When minute 0 was.
#[derive(Clone, Copy, Debug, PartialEq, Eq)]
pub struct Start {
    /// The weekday, 0 for Monday.
    pub day: u64,
    /// The minute of that day.
    pub time: u64,
}

/// How minutes are shown and read.
#[derive(Clone, Copy, Debug, Default, PartialEq, Eq)]
pub struct Clock {
    /// When minute 0 was, if somebody said so.
    pub start: Option<Start>,
}

impl Start {
    /// Reads `Mon`, which is midnight, or `Mon-05:30`.
    pub fn read(word: &str) -> Result<Start, String> {
        let (day, time) = word.split_once('-').unwrap_or((word, "00:00"));
        match (weekday(day), time_of_day(time)) {
            (Some(day), Some(time)) => Ok(Start { day, time }),
            _ => Err(format!(
                "{}: a start is a weekday, as Mon, or one with a time, as Mon-05:30",
                shown(word)
            )),
        }
    }

    /// The word that is read as this start.
    pub fn show(&self) -> String {
        let (hour, minute) = (self.time / HOUR, self.time % HOUR);
        format!("{}-{hour:02}:{minute:02}", DAYS[self.day as usize])
    }

    /// A weekday and time as a minute; `Tue+1-06:00` is a week after the first `Tue-06:00`.
    fn minute(&self, word: &str) -> Result<u32, String> {
        let apart = || {
            let (day, time) = word.split_once('-')?;
            let (day, week) = day.split_once('+').unwrap_or((day, "0"));
            let week: u32 = number(week).ok()?;
            Some((weekday(day)?, u64::from(week), time_of_day(time)?))
        };
        let shown = shown(word);
        let (day, week, time) = apart().ok_or_else(|| {
            format!(
                "{shown}: a minute is a number, or a weekday and a time of 24 hours, as Tue-06:00"
            )
        })?;
        let days = 7 * week + (7 + day - self.day) % 7;
        let minute = (days * DAY + time).checked_sub(self.time);
        let minute = minute.ok_or_else(|| format!("{shown} is before minute 0"))?;
        u32::try_from(minute).map_err(|_| format!("{shown} is after minute {}", u32::MAX))
    }

    fn word(&self, minute: u32) -> String {
        let since = self.time + u64::from(minute);
        let (days, time) = (since / DAY, since % DAY);
        let moment = Start {
            day: (self.day + days) % 7,
            time,
        };
        let word = moment.show();
        match days / 7 {
            0 => word,
            week => word.replace('-', &format!("+{week}-")),
        }
    }
}

impl Clock {
    /// A minute as people read it.
    pub fn show(&self, minute: u32) -> String {
        match self.start {
            Some(start) => start.word(minute),
            None => minute.to_string(),
        }
    }

    /// A minute, or the span from one to another.
    pub fn show_span(&self, (from, to): (u32, u32)) -> String {
        if from == to {
            return self.show(from);
        }
        format!("{} to {}", self.show(from), self.show(to))
    }

    /// Reads a minute: a number, or a weekday and a time.
    pub fn read(&self, word: &str) -> Result<u32, String> {
        let why = match self.start {
            _ if word.contains(':') && !is_moment(word) => NO_WEEKDAY,
            _ if word.starts_with(|c: char| c.is_ascii_digit()) => return number(word),
            Some(start) => return start.minute(word),
            None if is_moment(word) => {
                "it is not said when minute 0 was, as --start Mon, or start Mon in a text"
            }
            None => "a minute is a number",
        };
        Err(format!("{}: {why}", shown(word)))
    }
}

/// Whether a word starts with a weekday.
pub fn is_moment(word: &str) -> bool {
    word.get(..3).is_some_and(|day| weekday(day).is_some())
}

fn weekday(word: &str) -> Option<u64> {
    let day = DAYS.iter().position(|day| day.eq_ignore_ascii_case(word))?;
    Some(day as u64)
}

fn time_of_day(word: &str) -> Option<u64> {
    let (hour, minute) = word.split_once(':')?;
    let (hour, minute) = (number(hour).ok()?, number(minute).ok()?);
    (hour < 24 && minute < 60).then_some(u64::from(hour) * HOUR + u64::from(minute))
}

#[cfg(test)]
mod tests {
    use super::*;

    #[test]
    fn what_is_shown_is_read() {
        for day in 0..7 {
            for time in [0, 1, 330, DAY - 1] {
                let start = Start { day, time };
                assert_eq!(Start::read(&start.show()), Ok(start));
                let clock = Clock { start: Some(start) };
                let minutes = (0..30_000).step_by(7).chain([u32::MAX - 1, u32::MAX]);
                for minute in minutes {
                    let word = clock.show(minute);
                    assert_eq!(clock.read(&word), Ok(minute), "{word}");
                    assert_eq!(clock.read(&minute.to_string()), Ok(minute));
                }
            }
        }
    }

    #[test]
    fn known_minutes() {
        let clock = |word| Clock {
            start: Some(Start::read(word).expect("a start")),
        };
        assert_eq!(clock("Mon").read("Tue-06:00"), Ok(1800));
        assert_eq!(clock("mon-05:30").read("MON-05:30"), Ok(0));
        assert_eq!(clock("Sun").show(10_080 + 1440), "Mon+1-00:00");
        assert!(clock("Mon-05:30").read("Mon-05:29").is_err());
        assert_eq!(clock("Mon-05:30").read("Mon+1-05:29"), Ok(10_079));
        for word in [
            "Tue",
            "Tue-24:00",
            "Tue-06:60",
            "Tue+-06:00",
            "Tue+9999999999-06:00",
            "+5",
            "-5",
            "é",
            "",
        ] {
            assert!(clock("Mon").read(word).is_err(), "{word}");
        }
        let unknown = Clock::default().read("Tue-06:00").unwrap_err();
        assert!(unknown.contains("--start"));
        for word in ["06:00", "tuesday:06:00:00x"] {
            assert!(clock("Mon").read(word).is_err(), "{word}");
        }
    }
}
