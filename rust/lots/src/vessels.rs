//! Vessels by name or number.

use crate::words::{number, shown};

/// The most names that are offered for one that is unknown.
const OFFERED: usize = 3;

/// No name is near to a word that is longer.
const NEAR: usize = 32;

/// The vessel of a name, or else of a number.
pub fn find(names: &[String], word: &str) -> Option<u32> {
    let named = names.iter().position(|name| name == word);
    let numbered = || {
        let vessel = number(word).ok()? as usize;
        (vessel < names.len()).then_some(vessel)
    };
    named.or_else(numbered).map(|vessel| vessel as u32)
}

/// What to say of a vessel that is not there.
pub fn unknown(names: &[String], word: &str) -> String {
    let (near, numbered, word) = (nearest(names, word), number(word).is_ok(), shown(word));
    match near.is_empty() {
        false if numbered => format!("{word} is none; numbers are below {}", names.len()),
        true => format!("{word} is none"),
        false => format!("{word} is none; the nearest: {}", near.join(" ")),
    }
}

/// The names that are nearest to a word: those at the least distance, or hardly more.
fn nearest<'n>(names: &'n [String], word: &str) -> Vec<&'n str> {
    if word.len() > NEAR {
        return Vec::new();
    }
    let word = word.to_ascii_lowercase();
    let of = |name: &'n String| (distance(&name.to_ascii_lowercase(), &word), name.as_str());
    let mut near: Vec<(usize, &str)> = names.iter().map(of).collect();
    near.sort_by_key(|&(distance, _)| distance);
    let least = near.first().map_or(0, |&(distance, _)| distance);
    let close = near.into_iter().take_while(|&(d, _)| d <= least + 1);
    close.take(OFFERED).map(|(_, name)| name).collect()
}

/// How many letters are to be put in, struck or changed to make one word of another.
fn distance(one: &str, other: &str) -> usize {
    let other: Vec<char> = other.chars().collect();
    let mut row: Vec<usize> = (0..=other.len()).collect();
    for (i, a) in one.chars().enumerate() {
        let mut corner = row[0];
        row[0] = i + 1;
        for (j, &b) in other.iter().enumerate() {
            let changed = corner + usize::from(a != b);
            corner = row[j + 1];
            row[j + 1] = changed.min(corner + 1).min(row[j] + 1);
        }
    }
    row[other.len()]
}

#[cfg(test)]
mod tests {
    use super::*;

    fn names(words: &[&str]) -> Vec<String> {
        words.iter().map(|w| w.to_string()).collect()
    }

    #[test]
    fn by_name_then_by_number() {
        let names = names(&["SILO", "2", "MIXER", "+1"]);
        let found = [
            ("SILO", 0),
            ("2", 1),
            ("0", 0),
            ("1", 1),
            ("3", 3),
            ("+1", 3),
            ("003", 3),
        ];
        for (word, vessel) in found {
            assert_eq!(find(&names, word), Some(vessel), "{word}");
        }
        for word in ["", "silo", "4", "+2", "-1", "99999999999999999999999"] {
            assert_eq!(find(&names, word), None, "{word}");
        }
    }

    #[test]
    fn the_nearest_names() {
        let names = names(&["MILLER-A", "MILLER-B", "SILO", "DOUGH-1"]);
        assert_eq!(nearest(&names, "millerb"), ["MILLER-B", "MILLER-A"]);
        assert_eq!(nearest(&names, "silo2"), ["SILO"]);
        assert_eq!(distance("kitten", "sitting"), 3);
        assert_eq!(distance("", "abc"), 3);
        assert!(nearest(&names, &"A".repeat(5_000_000)).is_empty());
    }
}
