//! The page, read back: its data, its table, its bars. What the script does with the data is tried in a browser.

use crate::{ask, ask_words, names_of, text};
use calls::{Piece, NAME_BYTES};
use compare::{names, Random};
use second::Sheet;
use std::collections::{BTreeMap, BTreeSet};

/// The text of HTML without tags.
pub fn plain(html: &str) -> String {
    let entities = [
        ("&lt;", "<"),
        ("&gt;", ">"),
        ("&quot;", "\""),
        ("&#39;", "'"),
        ("&amp;", "&"),
    ];
    let replaced = |text: String, (from, to): &(&str, &str)| text.replace(from, to);
    entities.iter().fold(html.to_string(), replaced)
}

/// A name as a string in a script, where no `<` may stand.
fn quoted(name: &str) -> String {
    let mut quoted = name.replace('\\', "\\\\").replace('"', "\\\"");
    for letter in ['<', '>', '&'] {
        quoted = quoted.replace(letter, &format!("\\u{:04x}", letter as u32));
    }
    format!("\"{quoted}\"")
}

/// The cells of the table's rows.
fn rows(page: &str) -> Vec<Vec<String>> {
    let row = |row: &str| {
        let cells = row.split("</t").filter_map(|cell| cell.rsplit_once('>'));
        cells.map(|(_, cell)| plain(cell)).take(7).collect()
    };
    page.split("<tr data-vessel=").skip(1).map(row).collect()
}

/// The rows that the pieces make: vessel, weight, origin, of it, (share,) first and last birth.
fn expected(names: &[String], pieces: &[Piece]) -> Vec<Vec<String>> {
    let mut rows = Vec::new();
    for (holder, name) in (0..).zip(names) {
        let mut origins: BTreeMap<u32, (u32, u32, u32)> = BTreeMap::new();
        for p in pieces.iter().filter(|p| p.holder == holder) {
            let entry = origins.entry(p.origin).or_insert((0, p.birth, p.birth));
            *entry = (
                entry.0 + p.weight,
                entry.1.min(p.birth),
                entry.2.max(p.birth),
            );
        }
        let balance: u32 = origins.values().map(|(weight, ..)| weight).sum();
        let mut origins: Vec<_> = origins.into_iter().collect();
        origins.sort_by_key(|(_, (weight, ..))| std::cmp::Reverse(*weight));
        if origins.is_empty() {
            rows.push(vec![name.clone(), "empty".to_string()]);
        }
        for (origin, (weight, first, last)) in origins {
            let numbers = [balance, weight, first, last].map(|n| n.to_string());
            let [balance, weight, first, last] = numbers;
            let origin = names[origin as usize].clone();
            rows.push(vec![name.clone(), balance, origin, weight, first, last]);
        }
    }
    rows
}

/// Holds a page to the names and pieces that it is about.
pub fn page(page: &str, names: &[String], pieces: &[Piece]) {
    let names_there: Vec<String> = names.iter().map(|name| quoted(name)).collect();
    let numbers = |p: &Piece| format!("[{},{},{},{}]", p.holder, p.origin, p.birth, p.weight);
    let pieces_there: Vec<String> = pieces.iter().map(numbers).collect();
    let (n, p) = (names_there.join(","), pieces_there.join(","));
    let data = format!("\nconst DATA = {{\"names\":[{n}],\"pieces\":[{p}],\"start\":null}};\n");
    assert!(page.contains(&data), "wanted {data}");
    let mut shown = rows(page);
    for row in &mut shown {
        match row[1].as_str() {
            "empty" => row.truncate(2),
            _ => drop(row.remove(4)),
        }
    }
    assert_eq!(shown, expected(names, pieces));
    // Each origin in the legend looks different.
    let legend = page
        .split("<ul class=\"legend\">")
        .nth(1)
        .and_then(|rest| rest.split("</ul>").next());
    let looks = legend
        .expect("a legend")
        .split("<i class=\"swatch ")
        .skip(1);
    let looks: Vec<&str> = looks.filter_map(|rest| rest.split('"').next()).collect();
    assert_eq!(looks.iter().collect::<BTreeSet<_>>().len(), looks.len());
    // A card with a bar for each vessel.
    assert_eq!(page.matches("<div class=\"card\" ").count(), names.len());
    assert_eq!(page.matches("<div class=\"bar\">").count(), names.len());
    // Tags are the page's own, whatever the names are: two scripts, no remark, and each tag closed.
    assert!(!page.contains("<!--") && !page.contains("<0"));
    assert_eq!(page.matches("<script>").count(), 2);
    assert_eq!(page.matches("</script").count(), 2);
    for tag in [
        "li", "ul", "p", "td", "th", "tr", "table", "select", "option", "section", "style",
    ] {
        let opened =
            page.matches(&format!("<{tag}>")).count() + page.matches(&format!("<{tag} ")).count();
        assert_eq!(opened, page.matches(&format!("</{tag}>")).count(), "{tag}");
    }
}

/// Nothing is fetched: no address stands in a page.
#[test]
fn no_network() {
    let page = text("page -", &crate::file("examples/bakery-day.sheet"));
    assert!(page.contains("default-src 'none'"));
    for word in ["http://", "https://", "src=", "@import", "url(", "fetch("] {
        assert!(!page.contains(word), "{word}");
    }
}

/// Names that would be tags, entities or ends of strings.
#[test]
fn names_come_out_right() {
    let given = [
        "</script", "<!--", "a&b", "\"'\\", "&lt;", "<b>x</b>", "-->", "${x}", "\\u003c", "*/",
        "'", "`",
    ];
    let mut fixed: Vec<[u8; NAME_BYTES]> = Vec::new();
    for name in given {
        let mut bytes = [0; NAME_BYTES];
        bytes[..name.len()].copy_from_slice(name.as_bytes());
        fixed.push(bytes);
    }
    let mut random = Random::new(91);
    let others = names(&mut random, 52)
        .into_iter()
        .filter(|n| !fixed.contains(n));
    let all: Vec<[u8; NAME_BYTES]> = others.chain(fixed.iter().copied()).collect();
    let vessels = all.len() as u32;
    // Flour of each vessel goes to another one, and some of it on from there.
    let movement = |v: u32| calls::Transfer::new([v, (v + 1 + v % 5) % vessels, v, 3 + v % 7]);
    let movements = (0..vessels).map(movement);
    let sheet = Sheet {
        rule: 0,
        names: all,
        movements: movements.collect(),
    };
    let shown = ask("page -", &sheet.bytes());
    assert_eq!((shown.status, shown.err.as_str()), (0, ""));
    let Ok(outcome) = sheet.run(calls::PLACES) else {
        panic!("the sheet runs");
    };
    let names = names_of(&sheet);
    page(
        &String::from_utf8(shown.out).expect("text"),
        &names,
        &outcome.book.pieces(),
    );
}

/// The sheet's own name is no markup either, and a minute is shown as it was given.
#[test]
fn titles_come_out_right() {
    let folder = std::env::temp_dir().join(format!("lots-{}", std::process::id()));
    let file = folder.join("<i>&\"'.sheet");
    std::fs::create_dir_all(&folder).expect("a folder");
    std::fs::write(&file, crate::file("examples/two-paths.sheet")).expect("a file");
    let words = ["page", file.to_str().expect("a path"), "--until=00001900"];
    let page = String::from_utf8(ask_words(&words, b"").out).expect("text");
    std::fs::remove_dir_all(&folder).expect("the folder is there");
    assert!(page.contains("<li>sheet: &lt;i&gt;&amp;&quot;&#39;.sheet</li>"));
    assert!(page.contains("<li>no movement after 00001900</li>"));
}
