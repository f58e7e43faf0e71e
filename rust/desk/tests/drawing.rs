//! Drawings and pages are well-formed and hold what they should.

use desk::draw::{file, scenes, Merged, Unmerged};
use desk::explain::play;
use desk::input::found;
use desk::model::Exchange;
use desk::report::report;
use desk::text;
use exchange::{Capacity, Question, Refusal};
use generate::each_seed;

const NEWCOMER: &str = "old = entry(x).0 | office<card>.0\n\
                        new = (new slip)(entry(x).slip<x>.0 | slip(y).office<card>.0)\n\
                        apart: card entry\n";

fn drawing(exchange: &Exchange, pairs: &[(&str, &str)]) -> Result<String, Unmerged> {
    let pairs: Vec<_> = pairs.iter().map(|(a, b)| (a.to_string(), b.to_string())).collect();
    let merged = Merged::new(exchange, &pairs)?;
    let play = play(merged.exchange(), Capacity::default());
    Ok(file(&scenes(&merged, exchange, play.as_ref())))
}

/// Panics unless every tag is closed in order, every attribute is quoted and every sign that has a
/// meaning is written so. Void elements are written as closed ones, so pages are read as SVG is.
fn assert_well_formed(markup: &str) {
    let mut open: Vec<&str> = Vec::new();
    let mut rest = markup.strip_prefix("<!DOCTYPE html>\n").unwrap_or(markup);
    while let Some(start) = rest.find('<') {
        assert_sound_text(&rest[..start]);
        let length = rest[start..].find('>').expect("a tag ends");
        let tag = &rest[start + 1..start + length];
        rest = &rest[start + length + 1..];
        let name = tag.trim_start_matches('/').split([' ', '/']).next().expect("a name");
        match (tag.strip_prefix('/'), tag.strip_suffix('/')) {
            (Some(closed), _) => assert_eq!(open.pop(), Some(closed), "in {tag}"),
            (_, Some(alone)) => assert_attributes(&alone[name.len()..]),
            _ => {
                assert_attributes(&tag[name.len()..]);
                open.push(name);
            }
        }
    }
    assert_sound_text(rest);
    assert!(open.is_empty(), "{open:?} are not closed");
}

fn assert_sound_text(text: &str) {
    assert!(!text.contains('>') || text.contains('{'), "{text}");
    for entity in text.split('&').skip(1) {
        let known = ["amp;", "lt;", "gt;", "quot;"];
        assert!(known.iter().any(|known| entity.starts_with(known)), "&{entity}");
    }
}

fn assert_attributes(attributes: &str) {
    let pieces: Vec<&str> = attributes.split('"').collect();
    assert!(pieces.len() % 2 == 1 && pieces[pieces.len() - 1].trim().is_empty(), "{attributes}");
    let names = pieces[..pieces.len() - 1].iter().step_by(2);
    assert!(names.into_iter().all(|name| name.starts_with(' ') && name.ends_with('=')));
}

#[test]
fn a_drawing_holds_boxes_names_and_the_move() {
    let exchange = text::read(NEWCOMER).expect("an exchange");
    let svg = drawing(&exchange, &[]).expect("a drawing");
    assert_well_formed(&svg);
    let count = |piece: &str| svg.matches(piece).count();
    assert_eq!(count("class=\"box"), 4);
    assert_eq!(count("class=\"node"), 7);
    assert_eq!(count("class=\"node private"), 1);
    assert_eq!(count("class=\"apart\""), 2);
    assert!(svg.contains("Held apart: entry and card."));
    assert!(svg.contains(">office&lt;card&gt;.0</text>"));
    assert!(count("box moves") > 0 && count("head moves") > 0 && count("told moves") > 0);
}

/// How many boxes, free names and private names are red in the drawing of a part against 0.
fn red(part: &str) -> [usize; 3] {
    let exchange = text::read(&format!("old = {part}\nnew = 0\n")).expect("an exchange");
    let svg = drawing(&exchange, &[]).expect("a drawing");
    let start = svg.split("After ").next().expect("a first drawing");
    ["box moves", "node moves", "node private moves"]
        .map(|class| start.matches(&format!("class=\"{class}\"")).count())
}

#[test]
fn those_that_make_the_move_are_red() {
    assert_eq!(red("tau.0 | [a=b]a(x).0"), [1, 0, 0]);
    assert_eq!(red("(new s)(s(y).y<b>.0 | s<a>.0)"), [2, 0, 1]);
    assert_eq!(red("(new s)(a<s>.s(x).0) | (new t)t<b>.0"), [1, 1, 0]);
    assert_eq!(red("(new s)(s<s>.0 | a<new x>.0 | s<b>.0)"), [1, 1, 0]);
    assert_eq!(red("[a=b]0 | [a=b]c<d>.0"), [1, 1, 0]);
    // the name of the restriction goes with the step, and another could have been taken
    assert_eq!(red("(new s)(s<a>.0 | s(y).0 | tau.tau.0)"), [2, 0, 1]);
    assert_eq!(red("(new s)(s<s>.s<a>.0 | s(y).tau.0 | s(y).0)"), [2, 0, 1]);
    assert_eq!(red("a<new x>.x<x>.0 | a(y).y<b>.0 | a<new x>.0"), [2, 1, 0]);
}

#[test]
fn a_longer_play_is_drawn_to_its_end() {
    let source = "old = desk(reply).[reply=office]office<desk>.0\nnew = desk(reply).0\n";
    let svg = drawing(&text::read(source).expect("an exchange"), &[]).expect("a drawing");
    assert_well_formed(&svg);
    assert!(svg.contains(">After 1 answered move</text>"));
    assert!(svg.contains("If office and reply are one name: old sends desk on office, and new"));
    assert_eq!(svg.matches("class=\"box moves\"").count(), 2);
}

#[test]
fn merged_names_are_one_node() {
    let exchange = text::read(NEWCOMER).expect("an exchange");
    let svg = drawing(&exchange, &[("office", "entry")]).expect("a drawing");
    assert_well_formed(&svg);
    assert!(svg.contains(">entry = office</text>") && !svg.contains(">office</text>"));
    assert!(svg.contains(">slip(y).entry&lt;card&gt;.0</text>"), "{svg}");
    let unknown = drawing(&exchange, &[("office", "slip")]);
    assert_eq!(unknown, Err(Unmerged::Unknown("slip".into())));
    let apart = drawing(&exchange, &[("office", "entry"), ("office", "card")]);
    assert_eq!(apart, Err(Unmerged::Refused("office".into(), "card".into(), Refusal::Merging)));
}

#[test]
fn drawings_of_random_questions_are_well_formed() {
    each_seed(300, |random| {
        let bytes = generate::any(random);
        let Ok(question) = Question::new(&bytes) else { return };
        assert_well_formed(&drawing(&Exchange::of(question), &[]).expect("nothing is merged"));
    });
}

#[test]
fn a_page_holds_every_file() {
    let folder = std::env::temp_dir().join(format!("desk-page-{}", std::process::id()));
    std::fs::create_dir_all(&folder).expect("a folder can be made");
    let write = |name: &str, content: &[u8]| {
        std::fs::write(folder.join(name), content).expect("a file can be written");
    };
    write("a & b.exchange", b"# 1 < 2\nold = 0\nnew = 0\n");
    write("c.exchange", b"old = entry(x).0 | office<card>.0\nnew = entry(x).office<card>.0 + office<card>.entry(x).0");
    write("d.exchange", b"old = \xFF<");
    let report =
        report(found(&[folder.to_str().expect("a path").to_string()]), Capacity::default());
    let _ = std::fs::remove_dir_all(&folder);
    assert_well_formed(&report.page);
    assert_eq!(report.status, 3);
    for piece in [
        "3 files: 1 same, 1 different, 0 unsettled, 1 refused or unreadable",
        "<a href=\"#file2\">a &amp; b.exchange</a>",
        "</span> c.exchange</h2>",
        "# 1 &lt; 2",
        "the byte FF is no text in UTF-8",
        "<h3>Position 1</h3>",
        "<h3>With entry = office</h3>",
        "With <code>apart: entry office</code> they would be the same",
    ] {
        assert!(report.page.contains(piece), "{piece} in {}", report.page);
    }
    assert!(!report.page.contains("src=") && !report.page.contains("url("));
    assert_eq!(report.page.matches("<svg").count(), 6);
}
