//! One page on many files.

use crate::draw::{panels, scenes, Merged, Scene, LEGEND, STYLE};
use crate::explain::{explain, play, Explanation};
use crate::input::{self, Found, Unreadable};
use crate::judging::{at_once, counts, Outcome};
use crate::markup::{escaped, with_code};
use crate::model::Exchange;
use crate::play::Play;
use crate::telling::{pieces, Block};
use crate::text;
use exchange::{Answer, Capacity, Verdict};
use std::cmp::Reverse;

/// A page and the exit status that goes with it.
pub struct Report {
    /// The page.
    pub page: String,
    /// The exit status, as of judging the files.
    pub status: u8,
}

const PAGE_STYLE: &str = "\
:root{color-scheme:light}\
body{font:16px/1.5 system-ui,'DejaVu Sans',sans-serif;color:#1b2430;background:#fff;\
max-width:62rem;margin:0 auto;padding:1rem}\
h1{font-size:1.5rem}h2{font-size:1.2rem;overflow-wrap:anywhere}h3{font-size:1rem;margin-bottom:.3rem}\
section{border-top:2px solid #c8d0dc;margin-top:2rem}\
table{border-collapse:collapse;width:100%}\
td{padding:.3rem .5rem;border-top:1px solid #dde3ec;vertical-align:top;overflow-wrap:anywhere}\
td:first-child{white-space:nowrap;width:1%}\
.badge{border-radius:1rem;padding:.1rem .6rem;font-weight:600;white-space:nowrap;\
border:1.5px solid currentColor}\
.same{color:#14692f}.different{color:#b02020}.unsettled{color:#7a5a00}.unreadable{color:#5b2a86}\
pre,.term{font-family:'DejaVu Sans Mono',Menlo,Consolas,monospace;font-size:.9rem;\
white-space:pre-wrap;overflow-wrap:anywhere;background:#f4f7fb;border-radius:.4rem;\
padding:.5rem .7rem;margin:.3rem 0}\
.drawing{display:flex;flex-wrap:wrap;gap:1rem;align-items:flex-start;margin:.5rem 0}\
.drawing svg{flex:0 1 auto;min-width:0;max-width:100%;height:auto}\
code{font-family:'DejaVu Sans Mono',Menlo,Consolas,monospace;font-size:.9rem;background:#f4f7fb}\
.move{color:#b02020}.legend{font-size:.85rem;color:#50607a}\
@media print{body{max-width:none;padding:0;font-size:10.5pt}\
h2,h3,pre:not(:last-child),.lead{break-after:avoid}\
.drawing{flex-wrap:nowrap;break-after:avoid}h2,.drawing,pre,.term,li,tr{break-inside:avoid}\
p{orphans:3;widows:3}a{color:inherit;text-decoration:none}}";

/// The page on these files, worst first.
pub fn report(found: Found, capacity: Capacity) -> Report {
    let sections = at_once(&found.files, |(), file| section(file, capacity), || ());
    let unreadable = found.unreadable.into_iter().map(|reason| Section::unreadable("", reason));
    let mut sections: Vec<Section> = sections.into_iter().chain(unreadable).collect();
    sections.sort_by_key(|section| Reverse(section.outcome.status()));
    let status = sections.first().map_or(0, |section| section.outcome.status());
    Report { page: page(&sections, common_folder(&found.files)), status }
}

/// The innermost folder that several files have in common, with its last sign; else nothing.
fn common_folder(files: &[String]) -> &str {
    let [first, others @ ..] = files else { return "" };
    let folders = first.match_indices('/').map(|(at, sign)| &first[..at + sign.len()]);
    let common = |folder: &&str| others.iter().all(|file| file.starts_with(folder));
    folders.rev().find(common).filter(|_| !others.is_empty()).unwrap_or("")
}

/// What the page says of one file.
struct Section {
    file: String,
    outcome: Outcome,
    body: String,
}

impl Section {
    fn unreadable(file: &str, reason: Unreadable) -> Section {
        let body = format!("<pre>{}</pre>\n", escaped(&reason.full));
        Section { file: file.to_string(), outcome: Outcome::Unreadable(reason), body }
    }

    /// The word of the verdict, which is the class of its look too, and the verdict.
    fn verdict(&self) -> (&'static str, String) {
        match &self.outcome {
            Outcome::Judged(Answer::Unsettled) => ("unsettled", "unsettled".to_string()),
            Outcome::Judged(Answer::Result(verdict @ Verdict::Same(_))) => {
                ("same", verdict.to_string())
            }
            Outcome::Judged(Answer::Result(verdict)) => ("different", verdict.to_string()),
            Outcome::Unreadable(reason) => ("unreadable", reason.word()),
        }
    }

    fn badge(&self) -> String {
        let (class, verdict) = self.verdict();
        format!("<span class=\"badge {class}\">{verdict}</span>")
    }

    /// The file without the folder that is told once for all, or what is wrong with a folder.
    fn title(&self, folder: &str) -> &str {
        match &self.outcome {
            Outcome::Unreadable(reason) if self.file.is_empty() => &reason.line,
            _ => self.file.strip_prefix(folder).unwrap_or(&self.file),
        }
    }
}

fn section(file: &str, capacity: Capacity) -> Section {
    let read = input::bytes(file)
        .and_then(|bytes| input::exchange_of(file, &bytes).map(|exchange| (bytes, exchange)));
    match read {
        Err(reason) => Section::unreadable(file, reason),
        Ok((bytes, exchange)) => {
            let explanation = explain(&exchange, capacity);
            let source = match input::is_question(&bytes) {
                true => text::file(&exchange),
                false => String::from_utf8_lossy(&bytes).into_owned(),
            };
            let mut body = format!("<pre>{}</pre>\n", escaped(source.trim_end()));
            body += &drawings(&exchange, &explanation, capacity);
            body += &told(&explanation.blocks);
            let outcome = Outcome::Judged(explanation.answer);
            Section { file: file.to_string(), outcome, body }
        }
    }
}

/// The drawing of the exchange and of the end of its play, and, if the first move of the play merges
/// names, both with those merged.
fn drawings(exchange: &Exchange, explanation: &Explanation, capacity: Capacity) -> String {
    let play_here = explanation.play.as_ref();
    let mut drawings = drawing(&scenes(&Merged::nothing(exchange), exchange, play_here));
    let merged = play_here.map(Play::merged_first).unwrap_or_default();
    let word = |byte: u8| exchange.names[usize::from(byte)].clone();
    let pairs: Vec<_> = merged.into_iter().map(|(a, b)| (word(a), word(b))).collect();
    if pairs.is_empty() {
        return drawings;
    }
    if let Ok(merged) = Merged::new(exchange, &pairs) {
        let names: Vec<String> = pairs.iter().map(|(a, b)| format!("{a} = {b}")).collect();
        let play = play(merged.exchange(), capacity);
        drawings += &format!("<h3>With {}</h3>\n", escaped(&names.join(", ")));
        drawings += &drawing(&scenes(&merged, exchange, play.as_ref()));
    }
    drawings
}

fn drawing(scenes: &[(String, Scene)]) -> String {
    let mut drawing = String::new();
    for (heading, scene) in scenes {
        if !heading.is_empty() {
            drawing += &format!("<h3>{}</h3>\n", escaped(heading));
        }
        drawing += &format!("<div class=\"drawing\">\n{}</div>\n", panels(scene).concat());
        if let Some(move_told) = &scene.told {
            drawing += &format!("<p class=\"move\">{}</p>\n", escaped(move_told));
        }
        if !scene.apart.is_empty() {
            drawing += &format!("<p>Held apart: {}.</p>\n", escaped(&scene.apart.join("; ")));
        }
    }
    drawing
}

/// What is told, as paragraphs and lists.
fn told(blocks: &[Block]) -> String {
    let mut html = String::new();
    let mut in_list = false;
    for (place, block) in blocks.iter().enumerate() {
        let leads = matches!(blocks.get(place + 1), Some(Block::Term(..) | Block::Item(_)));
        let is_item = matches!(block, Block::Item(_));
        if is_item != in_list {
            html += if is_item { "<ul>\n" } else { "</ul>\n" };
            in_list = is_item;
        }
        html += &match block {
            Block::Verdict(told) => format!("<p><strong>{}</strong></p>\n", with_code(told)),
            Block::Position(number) => format!("<h3>Position {number}</h3>\n"),
            Block::Term(label, term) => {
                format!("<p class=\"term\">{} = {}</p>\n", escaped(label), breakable(term))
            }
            Block::Apart(list) => format!("<p class=\"term\">apart: {}</p>\n", escaped(list)),
            Block::Text(told) if leads => format!("<p class=\"lead\">{}</p>\n", with_code(told)),
            Block::Text(told) => format!("<p>{}</p>\n", with_code(told)),
            Block::Item(told) => format!("<li>{}</li>\n", with_code(told)),
        };
    }
    html + if in_list { "</ul>\n" } else { "" }
}

/// A term that may be broken where lines of a terminal may.
fn breakable(term: &str) -> String {
    let unbroken = |piece: &str| escaped(piece).replace("new ", "new\u{A0}");
    pieces(term).into_iter().map(unbroken).collect::<Vec<_>>().join("<wbr/>")
}

fn page(sections: &[Section], folder: &str) -> String {
    let line = |(number, section): (usize, &Section)| {
        format!(
            "<tr><td>{}</td><td><a href=\"#file{number}\">{}</a></td></tr>\n",
            section.badge(),
            escaped(section.title(folder))
        )
    };
    let lines: String = sections.iter().enumerate().map(line).collect();
    let body = |(number, section): (usize, &Section)| {
        format!(
            "<section id=\"file{number}\">\n<h2>{} {}</h2>\n{}</section>\n",
            section.badge(),
            escaped(section.title(folder)),
            section.body
        )
    };
    let bodies: String = sections.iter().enumerate().map(body).collect();
    let place = match folder {
        "" => String::new(),
        _ => format!("<p>In <code>{}</code></p>\n", escaped(folder)),
    };
    let outcomes: Vec<(String, Outcome)> =
        sections.iter().map(|section| (section.file.clone(), section.outcome.clone())).collect();
    format!(
        "<!DOCTYPE html>\n<html lang=\"en\">\n<head>\n<meta charset=\"utf-8\"/>\n\
         <meta name=\"viewport\" content=\"width=device-width, initial-scale=1\"/>\n\
         <title>Exchanges</title>\n<style>{PAGE_STYLE}{STYLE}</style>\n</head>\n<body>\n\
         <h1>Exchanges</h1>\n{place}<p>{}</p>\n<table>\n{lines}</table>\n\
         <p class=\"legend\">{}</p>\n{bodies}</body>\n</html>\n",
        escaped(&counts(&outcomes)),
        escaped(LEGEND),
    )
}
