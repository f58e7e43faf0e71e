//! A scene as SVG. Each part has a column of boxes and, to the right of it, a column of names.

use super::scene::{Panel, Scene};
use crate::markup::escaped;
use crate::telling::wrapped_words;
use std::fmt::Write;

/// Sizes in pixels. A letter of the fixed-width font is a little narrower than this.
const LETTER: usize = 9;
const LINE: usize = 19;
const MARGIN: usize = 16;
const PADDING: usize = 12;
const BOX_GAP: usize = 26;
const NODE: usize = 30;
const NODE_GAP: usize = 24;
const BETWEEN: usize = 84;
const TITLE: usize = 40;

/// The width of a lane in which pairs of names are joined that are held apart.
const LANE: usize = 18;

/// The most pairs that are joined; all are told in words in any case.
const JOINED: usize = 8;

/// The look of all drawings. The page of a report has it once.
pub const STYLE: &str = "\
.desk text{font:15px 'DejaVu Sans Mono',Menlo,Consolas,monospace;fill:#1b2430}\
.desk .title{font:600 17px system-ui,'DejaVu Sans',sans-serif}\
.desk .told{font:15px system-ui,'DejaVu Sans',sans-serif}\
.desk .box{fill:#f4f7fb;stroke:#50607a;stroke-width:1.5}\
.desk .node{fill:#fff7e0;stroke:#8a6d1a;stroke-width:1.5}\
.desk .private{stroke-dasharray:5 3;fill:#fff}\
.desk .link{fill:none;stroke:#50607a;stroke-width:1.6}\
.desk .mention{stroke-dasharray:2 4}\
.desk .apart{fill:none;stroke:#6b3fa0;stroke-width:1.5}\
.desk text.apart-sign{fill:#6b3fa0;stroke:#fff;stroke-width:4;paint-order:stroke}\
.desk .head{fill:#50607a}\
.desk .moves{stroke:#c02626;stroke-width:3}\
.desk .head.moves{fill:#c02626;stroke:none}\
.desk text.moves{fill:#c02626;stroke:none}";

/// A panel with the places of its pieces.
struct Placed<'a> {
    panel: &'a Panel,
    box_width: usize,
    node_width: usize,
    /// The upper edge and height of each box.
    boxes: Vec<(usize, usize)>,
    /// The middle of each name.
    nodes: Vec<usize>,
    /// The names held apart that are joined, the upper first, and their lanes.
    joined: Vec<((usize, usize), usize)>,
    width: usize,
    height: usize,
}

impl<'a> Placed<'a> {
    fn new(panel: &'a Panel) -> Placed<'a> {
        let letters = |text: &str| text.chars().count() * LETTER + 2 * PADDING;
        let lines = panel.boxes.iter().flat_map(|drawn| &drawn.lines);
        let box_width = lines.map(|line| letters(line)).max().unwrap_or(0).max(90);
        let labels = panel.nodes.iter().map(|node| letters(&node.label));
        let node_width = labels.max().unwrap_or(0).max(60);
        let heights = panel.boxes.iter().map(|drawn| drawn.lines.len() * LINE + 2 * PADDING);
        let heights: Vec<usize> = heights.collect();
        let boxes_height: usize = heights.iter().map(|height| height + BOX_GAP).sum();
        let nodes_height = panel.nodes.len() * (NODE + NODE_GAP);
        let inner = boxes_height.max(nodes_height);
        let mut top = TITLE + (inner - boxes_height) / 2;
        let boxes = heights
            .iter()
            .map(|&height| {
                top += height + BOX_GAP;
                (top - height - BOX_GAP, height)
            })
            .collect();
        let spacing = inner.checked_div(panel.nodes.len()).unwrap_or(0);
        let nodes = (0..panel.nodes.len())
            .map(|number| TITLE + spacing * number + (spacing - BOX_GAP.min(spacing)) / 2)
            .collect();
        let joined = joined(&panel.apart);
        let lanes = joined.iter().map(|&(_, lane)| LANE * (lane + 1)).max().unwrap_or(0);
        let width = MARGIN + box_width + BETWEEN + node_width + lanes + MARGIN;
        let height = TITLE + inner;
        Placed { panel, box_width, node_width, boxes, nodes, joined, width, height }
    }

    fn node_left(&self) -> usize {
        MARGIN + self.box_width + BETWEEN
    }

    /// The panel, with its left edge here.
    fn drawn(&self, left: usize) -> String {
        let mut svg = format!("<g transform=\"translate({left} 0)\">\n");
        let title = escaped(&self.panel.label);
        let _ = writeln!(svg, "<text class=\"title\" x=\"{MARGIN}\" y=\"24\">{title}</text>");
        self.apart(&mut svg);
        self.boxes(&mut svg);
        self.nodes(&mut svg);
        self.links(&mut svg);
        svg + "</g>\n"
    }

    fn boxes(&self, svg: &mut String) {
        for (drawn, &(top, height)) in self.panel.boxes.iter().zip(&self.boxes) {
            let class = class("box", drawn.moves);
            let _ = writeln!(
                svg,
                "<rect class=\"{class}\" x=\"{MARGIN}\" y=\"{top}\" width=\"{}\" \
                 height=\"{height}\" rx=\"6\"/>",
                self.box_width
            );
            for (number, line) in drawn.lines.iter().enumerate() {
                let (x, y) = (MARGIN + PADDING, top + PADDING + LINE * number + 14);
                let _ = writeln!(
                    svg,
                    "<text x=\"{x}\" y=\"{y}\" xml:space=\"preserve\">{}</text>",
                    escaped(line)
                );
            }
        }
    }

    fn nodes(&self, svg: &mut String) {
        for (node, &middle) in self.panel.nodes.iter().zip(&self.nodes) {
            let class = class(if node.private { "node private" } else { "node" }, node.moves);
            let (left, width) = (self.node_left(), self.node_width);
            let _ = writeln!(
                svg,
                "<rect class=\"{class}\" x=\"{left}\" y=\"{}\" width=\"{width}\" \
                 height=\"{NODE}\" rx=\"9\"/>\n<text x=\"{}\" y=\"{}\" \
                 text-anchor=\"middle\">{}</text>",
                middle - (NODE / 2).min(middle),
                left + width / 2,
                middle + 5,
                escaped(&node.label)
            );
        }
    }

    /// Where a line leaves its box: the lines of a box leave in the order of their names.
    fn port(&self, from: usize, to: usize) -> usize {
        let own = self.panel.links.iter().filter(|link| link.from == from);
        let count = own.clone().count();
        let before = own.filter(|link| link.to < to).count();
        let (top, height) = self.boxes[from];
        top + height * (2 * before + 1) / (2 * count.max(1))
    }

    /// Where a line meets its name, likewise.
    fn node_port(&self, from: usize, to: usize) -> usize {
        let own = self.panel.links.iter().filter(|link| link.to == to);
        let count = own.clone().count();
        let before = own.filter(|link| link.from < from).count();
        let spread = (NODE - 4).min(11 * count.saturating_sub(1));
        let top = self.nodes[to] - spread / 2;
        top + (spread * before).checked_div(count.saturating_sub(1)).unwrap_or(0)
    }

    fn links(&self, svg: &mut String) {
        let (left, right) = (MARGIN + self.box_width, self.node_left());
        for link in &self.panel.links {
            let (from, to) = (self.port(link.from, link.to), self.node_port(link.from, link.to));
            let plain = link.used.receives || link.used.sends;
            let class = class(if plain { "link" } else { "link mention" }, link.moves);
            let (start, end) = (left + 9, right - 9);
            let bend = BETWEEN / 2;
            let _ = writeln!(
                svg,
                "<path class=\"{class}\" d=\"M{left} {from}H{start}C{} {from} {} {to} {end} \
                 {to}H{right}\"/>",
                start + bend,
                end - bend
            );
            if link.used.receives {
                head(svg, left, from, false, link.moves);
            }
            if link.used.sends {
                head(svg, right, to, true, link.moves);
            }
        }
    }

    /// The lines that join names held apart, in the lanes to the right of the names.
    fn apart(&self, svg: &mut String) {
        let right = self.node_left() + self.node_width;
        for &((upper, lower), lane) in &self.joined {
            // It begins beneath the name, whose corners are round.
            let (start, x) = (right - 9, right + LANE * (lane + 1) - 4);
            let aside = (3 + 3 * lane).min(NODE / 2 - 3);
            let (from, to) = (self.nodes[upper] + aside, self.nodes[lower] - aside);
            let _ = writeln!(
                svg,
                "<path class=\"apart\" d=\"M{start} {from}H{}Q{x} {from} {x} {}V{}Q{x} {to} {} \
                 {to}H{start}\"/>\n<text class=\"apart-sign\" x=\"{x}\" y=\"{}\" \
                 text-anchor=\"middle\">≠</text>",
                x - 5,
                from + 5,
                to - 5,
                x - 5,
                (from + to) / 2 + 5
            );
        }
    }
}

/// Pairs of names, the upper first, each in the first lane in which it crosses no shorter one.
fn joined(apart: &[(usize, usize)]) -> Vec<((usize, usize), usize)> {
    let mut pairs: Vec<(usize, usize)> =
        apart.iter().take(JOINED).map(|&(a, b)| (a.min(b), a.max(b))).collect();
    pairs.sort_by_key(|&(upper, lower)| (lower - upper, upper));
    let mut joined: Vec<((usize, usize), usize)> = Vec::new();
    for (upper, lower) in pairs {
        let is_free = |lane: &usize| {
            let crosses = |&((a, b), other): &((usize, usize), usize)| {
                other == *lane && a < lower && upper < b
            };
            !joined.iter().any(crosses)
        };
        let lane = (0..).find(is_free).unwrap_or(0);
        joined.push(((upper, lower), lane));
    }
    joined
}

/// The head of an arrow whose point is here, to the right or to the left.
fn head(svg: &mut String, x: usize, y: usize, to_right: bool, moves: bool) {
    let back = if to_right { x - 11 } else { x + 11 };
    let class = class("head", moves);
    let (upper, lower) = (y - 5.min(y), y + 5);
    let _ = writeln!(svg, "<path class=\"{class}\" d=\"M{x} {y}L{back} {upper}V{lower}Z\"/>");
}

fn class(class: &str, moves: bool) -> String {
    match moves {
        true => format!("{class} moves"),
        false => class.to_string(),
    }
}

/// The two parts, each as an image of its own; what is told of both stands elsewhere.
pub fn panels(scene: &Scene) -> [String; 2] {
    scene.panels.each_ref().map(|panel| {
        let placed = Placed::new(panel);
        image(placed.width, placed.height, &panel.label, &placed.drawn(0), "")
    })
}

/// Drawings with their headings, one below the other, as a file.
pub fn file(scenes: &[(String, Scene)]) -> String {
    let rows = scenes.iter().map(|(heading, scene)| (heading, scene, scene.panels.each_ref()));
    let rows: Vec<_> =
        rows.map(|(heading, scene, panels)| (heading, scene, panels.map(Placed::new))).collect();
    let row_width = |row: &[Placed<'_>; 2]| row[0].width + row[1].width + 2 * MARGIN;
    let width = rows.iter().map(|(_, _, row)| row_width(row)).max().unwrap_or(0);
    let letters = (width - 2 * MARGIN) / 8;
    let mut inner = "<rect width=\"100%\" height=\"100%\" fill=\"#fff\"/>\n".to_string();
    let mut y = 0;
    for (heading, scene, row) in &rows {
        if !heading.is_empty() {
            y += 22;
            lines(&mut inner, &mut y, [("title", heading.to_string())]);
            y += 10;
        }
        side_by_side(&mut inner, row, y);
        y += row.iter().map(|placed| placed.height).max().unwrap_or(0) + 8;
        lines(&mut inner, &mut y, told(scene, letters));
    }
    let legend = wrapped_words(LEGEND, letters).into_iter().map(|line| ("told", line));
    lines(&mut inner, &mut y, legend);
    let style = format!("<style>{STYLE}</style>\n");
    let panels = &scenes.first().map(|(_, scene)| &scene.panels);
    let title = panels.map_or(String::new(), |[a, b]| format!("{} and {}", a.label, b.label));
    image(width, y + MARGIN, &title, &inner, &style)
}

/// The two parts of a drawing, with their upper edge here.
fn side_by_side(svg: &mut String, row: &[Placed<'_>; 2], top: usize) {
    let middle = row[0].width + MARGIN;
    let bottom = row.iter().map(|placed| placed.height).max().unwrap_or(0);
    let _ = writeln!(
        svg,
        "<g transform=\"translate(0 {top})\">\n<path d=\"M{middle} 12V{bottom}\" \
         stroke=\"#c8d0dc\"/>"
    );
    svg.push_str(&row[0].drawn(0));
    svg.push_str(&row[1].drawn(middle + MARGIN));
    svg.push_str("</g>\n");
}

/// Lines of text, each with its class, from here downward.
fn lines(svg: &mut String, y: &mut usize, lines: impl IntoIterator<Item = (&'static str, String)>) {
    for (class, line) in lines {
        *y += 22;
        let line = escaped(&line);
        let _ = writeln!(svg, "<text class=\"{class}\" x=\"{MARGIN}\" y=\"{y}\">{line}</text>");
    }
}

/// What the signs of a drawing mean.
pub const LEGEND: &str = "An arrow into a box: it receives on that name; into a name: it sends. \
Dotted: it only mentions the name. Dashed name: private. Names joined at the right: held apart. \
Red and thick: the move of the shortest play.";

/// The lines below the parts, with their classes.
fn told(scene: &Scene, letters: usize) -> Vec<(&'static str, String)> {
    let mut lines = Vec::new();
    let mut tell = |class, text: &str| {
        lines.extend(wrapped_words(text, letters).into_iter().map(|line| (class, line)));
    };
    if let Some(move_told) = &scene.told {
        tell("told moves", move_told);
    }
    if !scene.apart.is_empty() {
        tell("told", &format!("Held apart: {}.", scene.apart.join("; ")));
    }
    lines
}

fn image(width: usize, height: usize, title: &str, inner: &str, style: &str) -> String {
    format!(
        "<svg xmlns=\"http://www.w3.org/2000/svg\" class=\"desk\" role=\"img\" width=\"{width}\" \
         height=\"{height}\" viewBox=\"0 0 {width} {height}\">\n<title>{}</title>\n{style}{inner}</svg>\n",
        escaped(title)
    )
}
