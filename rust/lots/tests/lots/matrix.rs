//! The matrix of vessels by origins, read back.

use second::Book;

/// The fields of lines with commas, as a spreadsheet reads them.
fn fields(line: &str) -> Vec<String> {
    let mut fields = vec![String::new()];
    let mut quoted = false;
    let mut letters = line.chars().peekable();
    while let Some(letter) = letters.next() {
        let field = fields.last_mut().expect("a field");
        match letter {
            '"' if quoted && letters.next_if_eq(&'"').is_some() => field.push('"'),
            '"' if quoted || field.is_empty() => quoted = !quoted,
            ',' if !quoted => fields.push(String::new()),
            _ => field.push(letter),
        }
    }
    fields
}

/// Holds the lines for a spreadsheet to the second implementation's reports.
pub fn csv(shown: &str, names: &[String], book: &Book) {
    let lines: Vec<Vec<String>> = shown.lines().map(fields).collect();
    assert_eq!(lines.len(), names.len() + 1);
    assert_eq!(lines[0][0], "vessel");
    assert_eq!(lines[0][1..], *names);
    for (vessel, (line, name)) in (0..).zip(lines[1..].iter().zip(names)) {
        let weights = book.held(vessel).expect("a vessel of the book");
        let weights: Vec<String> = weights.iter().map(u32::to_string).collect();
        assert_eq!((&line[0], &line[1..]), (name, weights.as_slice()));
    }
}

/// Holds the matrix for people to them: an origin that has no column has no flour anywhere.
pub fn whole(shown: &str, names: &[String], book: &Book) {
    // A dot alone is 0. Names are read from the line itself: they may have dots.
    let words = |line: &str| -> Vec<String> {
        let words = line.split_ascii_whitespace();
        let number = |word: &str| {
            if word == "." {
                "0".to_string()
            } else {
                word.to_string()
            }
        };
        words.map(number).collect()
    };
    let lines: Vec<&str> = shown.lines().collect();
    let mut columns: Vec<&str> = lines[0].split_ascii_whitespace().collect();
    assert_eq!(columns.pop(), Some("total"));
    let column = |origin: usize| columns.iter().position(|name| *name == names[origin]);
    let mut sums = vec![0_u64; columns.len() + 1];
    for (vessel, name) in (0..).zip(names) {
        let line = lines[1 + vessel as usize];
        assert_eq!(line.split_ascii_whitespace().next(), Some(name.as_str()));
        let cells: Vec<u64> = words(line)[1..]
            .iter()
            .map(|w| w.parse().expect("a number"))
            .collect();
        let weights = book.held(vessel).expect("a vessel of the book");
        for (origin, &weight) in weights.iter().enumerate() {
            assert_eq!(column(origin).map_or(0, |c| cells[c]), u64::from(weight));
        }
        assert_eq!(cells.len(), sums.len());
        assert_eq!(
            cells.last(),
            Some(&u64::from(book.head().balances[vessel as usize]))
        );
        sums.iter_mut()
            .zip(&cells)
            .for_each(|(sum, cell)| *sum += cell);
    }
    let sums = sums.iter().map(u64::to_string);
    let total: Vec<String> = ["total".to_string()].into_iter().chain(sums).collect();
    assert_eq!(words(lines[1 + names.len()]), total);
    assert_eq!(lines.len(), names.len() + 2);
}
