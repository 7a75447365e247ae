//! The page: one HTML file that fetches nothing. It has a picture of every vessel, the same as a table, and a
//! box for recalls, whose script adds up the pieces that stand in the page as numbers.

use crate::check::because;
use crate::clock::Clock;
use crate::ledger::{percent, Ledger, Share};
use crate::sheet::{Cut, RULES};
use lumchaki::{Piece, Refusal};

const STYLE: &str = include_str!("page.css");
const SCRIPT: &str = include_str!("page.js");

/// Nothing is fetched and nothing is sent. The icon is empty, so that no browser asks for one.
const HEAD: &str = r#"<!doctype html>
<html lang="en">
<head>
<meta charset="utf-8">
<meta http-equiv="Content-Security-Policy" content="default-src 'none'; style-src 'unsafe-inline'; script-src 'unsafe-inline'; img-src data:; form-action 'none'">
<meta name="viewport" content="width=device-width, initial-scale=1">
<link rel="icon" href="data:,">
<title>Whose flour is in every vessel</title>
"#;

/// The heads of the table's columns.
const COLUMNS: &str = "Vessel,Weight (g),Origin,Of it (g),Share,Earliest birth,Latest birth,Recall";

/// How a minute is given where it is known when minute 0 was.
const MOMENT: &str = "a number, or a weekday and a time: <b>Tue-06:00</b>, a week later \
                      <b>Tue+1-06:00</b>. Minute 0 was";

/// How many colours the style has. The origins behind them have the same ones under another pattern.
const COLOURS: usize = 16;

/// What is shown, gathered once.
struct Page<'l> {
    title: &'l str,
    cut: &'l Cut,
    ledger: &'l Ledger,
    clock: &'l Clock,
    /// What each vessel holds, heaviest first.
    held: Vec<Vec<Share>>,
    /// The origins whose flour is somewhere, each with its weight, heaviest first.
    origins: Vec<(u32, u64)>,
}

/// The page of a ledger, under the name of its sheet, with how much of that was looked at.
pub fn page(title: &str, cut: &Cut, ledger: &Ledger, clock: &Clock) -> Result<String, Refusal> {
    let held = ledger.vessels().map(|vessel| ledger.held(vessel));
    let held = held.collect::<Result<Vec<Vec<Share>>, Refusal>>()?;
    let origins = ledger.origins()?;
    let page = Page {
        title,
        cut,
        ledger,
        clock,
        held,
        origins,
    };
    Ok(page.whole())
}

impl Page<'_> {
    fn whole(&self) -> String {
        let (header, recall, legend) = (self.header(), self.recall(), self.legend());
        let (picture, table, data) = (self.picture(), self.table(), self.data());
        format!(
            "{HEAD}<style>\n{STYLE}</style>\n</head>\n<body>\n{header}<main>\n\
             {recall}{legend}{picture}{table}</main>\n\
             <script>\n{data}</script>\n<script>\n{SCRIPT}</script>\n</body>\n</html>\n"
        )
    }

    fn name(&self, vessel: u32) -> String {
        html(self.ledger.name(vessel))
    }

    /// The classes of an origin's colour and pattern, by its rank.
    fn look(&self, origin: u32) -> String {
        let heavier = self.origins.iter().take_while(|&&(o, _)| o != origin);
        let rank = heavier.count();
        format!("c{} p{}", rank % COLOURS, rank / COLOURS)
    }

    fn header(&self) -> String {
        let Ledger { sheet, head, .. } = self.ledger;
        let (accepted, all) = (head.accepted, sheet.movements.len());
        let mut facts = vec![
            format!("sheet: {}", html(self.title)),
            format!("rule {}, {}", sheet.rule, RULES[sheet.rule as usize]),
            format!("vessels: {}", head.vessels),
            format!("movements accepted: {accepted} of {all}"),
            format!("minutes: {}", self.ledger.minutes(self.clock)),
            format!("{} g in all", self.origins.iter().map(|o| o.1).sum::<u64>()),
        ];
        facts.extend(self.cut.notes().iter().map(|note| html(note)));
        let facts: String = facts.iter().map(|f| format!("<li>{f}</li>\n")).collect();
        let stop = self.stop();
        format!("<header>\n<h1>Whose flour is in every vessel</h1>\n<ul class=\"facts\">\n{facts}</ul>\n{stop}</header>\n")
    }

    /// Where the run stopped, if it did.
    fn stop(&self) -> String {
        let Some(stop) = self.ledger.stop else {
            return String::new();
        };
        let (movement, why) = because(self.ledger, self.clock, &stop);
        let (movement, why) = (html(&movement), html(&why));
        format!(
            r#"<p class="stop"><strong>Stopped at movement {} (the first is 0): {}.</strong>
{movement}: {why}. What follows is how it stood before it.</p>
"#,
            stop.index, stop.refusal
        )
    }

    fn recall(&self) -> String {
        let (mode, minute) = match self.clock.start {
            Some(start) => ("text", format!("{MOMENT} <b>{}</b>", start.show())),
            None => ("numeric", "a number".to_string()),
        };
        let field = format!(
            r#"type="text" inputmode="{mode}" autocapitalize="off" spellcheck="false" aria-describedby="hint" aria-errormessage="said""#
        );
        let options = self.options();
        format!(
            r#"<section class="recall" id="recall">
<h2>Recall</h2>
<noscript><p>The recall box needs JavaScript. Without it, ask <code>lots where SHEET ORIGIN FROM TO</code>.</p></noscript>
<form id="ask" autocomplete="off" hidden>
<div class="wide"><label for="origin">Flour of</label><select id="origin">
<option value="">choose an origin</option>
{options}</select></div>
<div><label for="from">Born from</label><input id="from" {field}></div>
<div><label for="to">Born to</label><input id="to" {field}></div>
<button type="reset">Reset</button>
<p class="hint" id="hint">Both minutes included; empty means no limit. A minute is {minute}.</p>
</form>
<output id="said" for="origin from to" aria-live="polite"></output>
</section>
"#
        )
    }

    /// Every vessel as an origin, those whose flour is somewhere first.
    fn options(&self) -> String {
        let option = |origin, weight: String| {
            let name = self.name(origin);
            format!("<option value=\"{origin}\">{name}{weight}</option>\n")
        };
        let group = |label: &str, options: String| match options.as_str() {
            "" => options,
            _ => format!("<optgroup label=\"{label}\">\n{options}</optgroup>\n"),
        };
        let found = |&(origin, weight): &(u32, u64)| option(origin, format!(" – {weight} g"));
        let found = self.origins.iter().map(found);
        let absent = |vessel: &u32| self.origins.iter().all(|(origin, _)| origin != vessel);
        let absent = self.ledger.vessels().filter(absent);
        let absent = absent.map(|origin| option(origin, String::new()));
        group("in the vessels", found.collect()) + &group("in none", absent.collect())
    }

    fn legend(&self) -> String {
        let entry = |&(origin, weight): &(u32, u64)| {
            let (name, look) = (self.name(origin), self.look(origin));
            format!("<li><i class=\"swatch {look}\"></i><b>{name}</b> {weight} g</li>\n")
        };
        let entries: String = match self.origins.len() {
            0 => "<li>All vessels are empty.</li>\n".to_string(),
            _ => self.origins.iter().map(entry).collect(),
        };
        format!("<section>\n<h2>Origins</h2>\n<ul class=\"legend\">\n{entries}</ul>\n</section>\n")
    }

    /// The picture is kept from screen readers: the table says the same.
    fn picture(&self) -> String {
        let cards: String = self.ledger.vessels().map(|v| self.card(v)).collect();
        format!("<section aria-hidden=\"true\">\n<h2>Vessels</h2>\n<div class=\"cards\">\n{cards}</div>\n</section>\n")
    }

    fn card(&self, vessel: u32) -> String {
        let (name, balance) = (self.name(vessel), self.ledger.balance(vessel));
        let total = match balance {
            0 => "empty".to_string(),
            _ => format!("{balance} g"),
        };
        let (mut bar, mut lots) = (String::new(), String::new());
        for share in &self.held[vessel as usize] {
            let Share { origin, weight, .. } = *share;
            let (of, look) = (self.name(origin), self.look(origin));
            let part = html(&percent(weight, balance));
            let born = self.clock.show_span(share.births);
            bar += &format!(
                r#"<span class="{look}" data-origin="{origin}" style="flex-grow:{weight}"><b>{of}</b></span>"#
            );
            lots += &format!(
                r#"<li data-origin="{origin}"><i class="swatch {look}"></i><b>{of}</b>
<span class="n">{weight} g</span><span class="n">{part}</span><span class="born">born {born}</span></li>
"#
            );
        }
        format!(
            r#"<div class="card" data-vessel="{vessel}">
<p class="top"><b>{name}</b><span class="mark"></span><span class="n">{total}</span></p>
<div class="bar">{bar}</div>
<ul class="lots">{lots}</ul>
</div>
"#
        )
    }

    fn table(&self) -> String {
        let head = |word| format!("<th scope=\"col\">{word}</th>");
        let heads: String = COLUMNS.split(',').map(head).collect();
        let rows: String = self.ledger.vessels().map(|v| self.rows(v)).collect();
        format!(
            r#"<section class="table" role="region" aria-labelledby="caption" tabindex="0">
<table>
<caption id="caption">Every vessel by origin</caption>
<thead><tr>{heads}</tr></thead>
{rows}</table>
</section>
"#
        )
    }

    fn rows(&self, vessel: u32) -> String {
        let (name, balance) = (self.name(vessel), self.ledger.balance(vessel));
        let row = |origin: &str, cells: &str| {
            format!(
                r#"<tr data-vessel="{vessel}"{origin}><th scope="row">{name}</th>{cells}<td class="mark"></td></tr>
"#
            )
        };
        let of = |share: &Share| {
            let (origin, weight) = (self.name(share.origin), share.weight);
            let part = html(&percent(weight, balance));
            let [first, last] = [share.births.0, share.births.1].map(|m| self.clock.show(m));
            let cells = format!("<td>{balance}</td><td>{origin}</td><td>{weight}</td><td>{part}</td><td>{first}</td><td>{last}</td>");
            row(&format!(" data-origin=\"{}\"", share.origin), &cells)
        };
        let rows = match balance {
            0 => row("", "<td>empty</td><td colspan=\"5\"></td>"),
            _ => self.held[vessel as usize].iter().map(of).collect(),
        };
        format!("<tbody>\n{rows}</tbody>\n")
    }

    /// What the script reads: one line.
    fn data(&self) -> String {
        let names: Vec<String> = self.ledger.sheet.names.iter().map(|n| json(n)).collect();
        let numbers = |p: Piece| format!("[{},{},{},{}]", p.holder, p.origin, p.birth, p.weight);
        let pieces: Vec<String> = self.ledger.pieces().map(numbers).collect();
        let start = self.clock.start.map(|s| format!("[{},{}]", s.day, s.time));
        let start = start.unwrap_or("null".to_string());
        let (names, pieces) = (names.join(","), pieces.join(","));
        format!("const DATA = {{\"names\":[{names}],\"pieces\":[{pieces}],\"start\":{start}}};\n")
    }
}

/// Text that means itself between tags and in an attribute.
fn html(text: &str) -> String {
    let text = text.replace('&', "&amp;").replace('<', "&lt;");
    let text = text.replace('>', "&gt;").replace('"', "&quot;");
    text.replace('\'', "&#39;")
}

/// A name as a string of JSON in which no browser sees the end of the script.
fn json(name: &str) -> String {
    let escaped = |c: char| match c {
        '"' | '\\' => format!("\\{c}"),
        '<' | '>' | '&' => format!("\\u{:04x}", u32::from(c)),
        _ => c.to_string(),
    };
    format!("\"{}\"", name.chars().map(escaped).collect::<String>())
}
