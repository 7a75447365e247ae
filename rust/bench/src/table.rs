//! A table of times for each rule, with one column for each implementation and the first one's ratio
//! to the others; and a table of the ratios alone, with one column for each rule.

/// Rows of times in seconds.
pub struct Table<'l> {
    labels: &'l [&'l str],
    rows: Vec<(&'static str, Vec<f64>)>,
}

/// Seconds in a unit that fits.
pub fn time(seconds: f64) -> String {
    match seconds {
        s if s >= 1e-3 => format!("{:.2} ms", s * 1e3),
        s if s >= 1e-6 => format!("{:.2} µs", s * 1e6),
        s => format!("{:.0} ns", s * 1e9),
    }
}

impl<'l> Table<'l> {
    pub fn new(labels: &'l [&'l str]) -> Table<'l> {
        Table {
            labels,
            rows: Vec::new(),
        }
    }

    pub fn row(&mut self, title: &'static str, times: Vec<f64>) {
        self.rows.push((title, times));
    }

    pub fn print(&self) {
        let first = self.labels[0];
        let over = self.labels[1..].iter().map(|l| format!("{first}/{l}"));
        let heads = self.labels.iter().map(|l| l.to_string()).chain(over);
        print_line("", heads);
        for (title, times) in &self.rows {
            print_line(title, times.iter().copied().map(time).chain(ratios(times)));
        }
    }
}

/// The first time's ratio to each of the others.
fn ratios(times: &[f64]) -> impl Iterator<Item = String> + '_ {
    times[1..].iter().map(|t| format!("{:.2}", times[0] / t))
}

/// Prints the ratios of the tables of all rules, which have the same rows: to the first of the others
/// and, in brackets, to the next.
pub fn print_ratios(tables: &[Table]) {
    let labels = tables[0].labels;
    let over = labels[1..].iter().map(|l| format!("{}/{l}", labels[0]));
    println!("\n{}", bracketed(over));
    let rules = (0..tables.len()).map(|rule| format!("rule {rule}"));
    print_line("", rules);
    for (i, (title, _)) in tables[0].rows.iter().enumerate() {
        let cells = tables.iter().map(|t| bracketed(ratios(&t.rows[i].1)));
        print_line(title, cells);
    }
}

/// The first word, and the others in brackets.
fn bracketed(mut words: impl Iterator<Item = String>) -> String {
    let first = words.next().unwrap_or_default();
    let others: String = words.map(|word| format!(" ({word})")).collect();
    first + &others
}

/// Prints a title and its cells.
pub fn print_line(title: &str, cells: impl IntoIterator<Item = String>) {
    let cells: String = cells
        .into_iter()
        .map(|cell| format!("{cell:>16}"))
        .collect();
    println!("{title:<36}{cells}");
}
