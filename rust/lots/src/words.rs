//! Words that were given, as messages show them.

/// A word longer than this is shown in part.
const SHOWN: usize = 40;

/// A word for a terminal: no control characters, and not too much of it.
pub fn shown(word: &str) -> String {
    let letter = |c: char| match c.is_control() {
        true => c.escape_default().to_string(),
        false => c.to_string(),
    };
    let front: String = word.chars().take(SHOWN).map(letter).collect();
    match word.chars().nth(SHOWN) {
        Some(_) => front + "...",
        None => front,
    }
}

/// A decimal number of 32 bits.
pub fn number(word: &str) -> Result<u32, String> {
    let over = |_| format!("{}: a number is at most {}", shown(word), u32::MAX);
    digits(word)?.parse().map_err(over)
}

/// A decimal number, the largest of 32 bits for any that is larger.
pub fn at_most(word: &str) -> Result<u32, String> {
    Ok(digits(word)?.parse().unwrap_or(u32::MAX))
}

fn digits(word: &str) -> Result<&str, String> {
    match !word.is_empty() && word.bytes().all(|b| b.is_ascii_digit()) {
        true => Ok(word),
        false => Err(format!(
            "{}: not a whole number in digits alone",
            shown(word)
        )),
    }
}

#[cfg(test)]
mod tests {
    use super::*;

    #[test]
    fn what_is_shown_of_a_word() {
        assert_eq!(shown("S\u{fc}d-1 \"<"), "S\u{fc}d-1 \"<");
        assert_eq!(shown("\u{1b}[2J\u{7}\n"), "\\u{1b}[2J\\u{7}\\n");
        assert_eq!(shown(&"x".repeat(5_000_000)), "x".repeat(40) + "...");
    }

    #[test]
    fn numbers() {
        for (word, read, limited) in [
            ("0", Some(0), Some(0)),
            ("007", Some(7), Some(7)),
            ("4294967295", Some(u32::MAX), Some(u32::MAX)),
            ("4294967296", None, Some(u32::MAX)),
            ("99999999999999999999999", None, Some(u32::MAX)),
            ("", None, None),
            ("+1", None, None),
            ("1.5", None, None),
        ] {
            assert_eq!(number(word).ok(), read, "{word}");
            assert_eq!(at_most(word).ok(), limited, "{word}");
        }
    }
}
