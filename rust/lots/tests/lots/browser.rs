//! The recall box in a real browser. The gate needs none, so this is asked for by name:
//! `cargo test -p lots -- --ignored`, with Chromium installed, or `LOTS_BROWSER` naming it.

use crate::{ask_words, page::plain};
use calls::{Refusal, TOP};
use compare::{near, sheet, working_day, Random};
use second::{Book, Sheet};
use std::fmt::Write;
use std::process::Command;

/// Asks the box what `ASKED` has, and leaves in the page, for each: what it said, and what each vessel was marked
/// with in the picture and in the table.
const TRIAL: &str = r#"
const field = (id) => document.getElementById(id);
const marks = (what) => DATA.names.map((_, vessel) => {
  const words = [...document.querySelectorAll(`${what}[data-vessel="${vessel}"] .mark`)];
  return words.map((word) => word.textContent).find((word) => word !== "same vessel");
});
const lines = ASKED.map(([origin, from, to]) => {
  field("origin").value = origin;
  field("from").value = from;
  field("to").value = to;
  field("ask").dispatchEvent(new Event("input"));
  return [field("said").textContent, ...marks(".card"), ...marks("tr")].join("|");
});
const tried = document.createElement("pre");
tried.textContent = lines.map((line) => `\n${line}`).join("");
tried.id = "tried";
document.body.replaceChildren(tried);
"#;

/// The lines that the trial leaves.
fn tried(page: &str, asked: &str) -> Vec<String> {
    let trial = format!("<script>\nconst ASKED = [{asked}];\n{TRIAL}</script>\n</body>");
    let path = std::env::temp_dir().join(format!("lots-{}.html", std::process::id()));
    std::fs::write(&path, page.replace("</body>", &trial)).expect("the page is written");
    let browser = std::env::var("LOTS_BROWSER").unwrap_or("chromium".to_string());
    let output = Command::new(browser)
        .args(["--headless", "--no-sandbox", "--disable-gpu", "--dump-dom"])
        .arg(format!("file://{}", path.display()))
        .output()
        .expect("the browser starts");
    let shown = String::from_utf8(output.stdout).expect("text");
    let (_, tried) = shown
        .split_once("<pre id=\"tried\">")
        .expect("the trial ran");
    let (tried, _) = tried.split_once("</pre>").expect("the trial ended");
    std::fs::remove_file(&path).expect("the page is there");
    // The names hold `|` too; marks do not, so that they are read from the end.
    tried.trim().lines().map(str::to_string).collect()
}

/// Holds what the box said of an origin and a span to the second implementation.
fn compare_line(line: &str, book: &Book, origin: u32, span: (u32, u32)) {
    let vessels = book.head().vessels as usize;
    let mut parts: Vec<&str> = line.rsplitn(2 * vessels + 1, '|').collect();
    parts.reverse();
    let (said, marks) = parts.split_first().expect("what it said");
    match book.spread(origin, span.0, span.1) {
        Ok(weights) => {
            let total: u64 = weights.iter().map(|&w| u64::from(w)).sum();
            let hit = weights.iter().filter(|&&w| w > 0).count();
            let sum = format!("{total} g in {hit} of {vessels} vessels");
            assert!(said.starts_with(&sum), "{line}\nwanted {sum}");
            let mark = |&weight: &u32| match weight {
                0 => "clear".to_string(),
                _ => format!("recall: {weight} g"),
            };
            let wanted: Vec<String> = weights.iter().map(mark).collect();
            assert_eq!(marks, [wanted.clone(), wanted].concat());
        }
        Err(refusal) => {
            assert_eq!(refusal, Refusal::SpanBack);
            assert!(said.contains("span back (12)"), "{line}");
            assert!(marks.iter().all(|mark| mark.is_empty()), "{line}");
        }
    }
}

fn try_sheet(random: &mut Random, sheet: &Sheet) -> u32 {
    let Ok(outcome) = sheet.run(calls::PLACES) else {
        panic!("a sheet that can be read is run");
    };
    let book = outcome.book;
    let start = random.one_of(&[None, Some("Mon"), Some("Sat-22:45")]);
    let clock = lots::clock::Clock {
        start: start.map(|word| lots::clock::Start::read(word).expect("a start")),
    };
    let births: Vec<u32> = book.pieces().iter().map(|p| p.birth).chain([0]).collect();
    let (mut asked, mut asks) = (String::new(), Vec::new());
    for _ in 0..40 {
        let origin = random.below(sheet.names.len() as u32);
        let (from, to) = (near(random, &births), near(random, &births));
        // An empty field is no limit.
        let word = |minute: u32, limit| match minute == limit {
            true => String::new(),
            false => clock.show(minute),
        };
        let (first, last) = (word(from, 0), word(to, TOP));
        write!(asked, "[{origin},\"{first}\",\"{last}\"],").expect("a string takes all");
        asks.push((origin, (from, to)));
    }
    let mut words = vec!["page", "-"];
    words.extend(start.iter().flat_map(|start| ["--start", start]));
    let page = String::from_utf8(ask_words(&words, &sheet.bytes()).out).expect("text");
    let lines = tried(&page, &asked);
    assert_eq!(lines.len(), asks.len());
    for (line, &(origin, span)) in lines.iter().zip(&asks) {
        compare_line(&plain(line), &book, origin, span);
    }
    asks.len() as u32
}

#[test]
#[ignore = "needs Chromium"]
fn recall_box() {
    let mut random = Random::new(95);
    let mut recalls = 0;
    for _ in 0..24 {
        let sheet = sheet(&mut random, 60);
        recalls += try_sheet(&mut random, &sheet);
    }
    let day = working_day(&mut random, 2);
    recalls += try_sheet(&mut random, &day);
    println!("recall box: {recalls} recalls as the second implementation has them");
    assert!(recalls == 1_000);
}
