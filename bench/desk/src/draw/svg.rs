//! A run as SVG: time goes down, a column a processor. A bar goes from an action's issue to its commit, an arrow from what
//! a read took to the read, and a dashed one from a release to the acquires behind it.

use std::collections::BTreeSet;

use super::labels;
use crate::trace::{Action, Source, Trace};

/// Sizes in pixels.
const ROW: usize = 30;
const LANE: usize = 16;
const LETTER: usize = 8;
const MARGIN: usize = 40;
/// Where the first words stand, a line each, and the room between them and the first step.
const WORDS: usize = 88;
const LINE: usize = 20;
const HEAD: usize = 40;
const NUMBERS: usize = 34;
/// No page is narrower than the line under its title.
const NARROWEST: usize = 760;

/// Where things stand.
struct Page<'a> {
    trace: &'a Trace,
    /// Each column's left edge, and the page's right one at the end.
    columns: Vec<usize>,
    /// Each action's lane in its column, and how many lanes a column has.
    lanes: Vec<usize>,
    wide: Vec<usize>,
    /// The locations whose first words each column's reads took.
    old: Vec<Vec<usize>>,
    /// Where the steps begin.
    top: usize,
}

/// The picture of a run, under a title; `wanted` is the result that was asked for.
pub fn picture(trace: &Trace, title: &str, wanted: &str) -> String {
    let page = Page::of(trace);
    let notes = labels::ordered(trace);
    let foot = page.top + ROW * (trace.steps.len() + 1);
    let width = NARROWEST.max(page.columns[trace.processors] + MARGIN);
    let height = foot + 24 * (notes.len() + 2) + MARGIN;
    let parts = [
        head(width, height, title, wanted),
        page.frame(foot),
        page.arrows(),
        page.bars(),
        page.words(),
        page.foot(foot, &notes),
        "</svg>\n".to_string(),
    ];
    parts.concat()
}

fn head(width: usize, height: usize, title: &str, wanted: &str) -> String {
    let style = "text{font-family:'DejaVu Sans',Verdana,sans-serif;font-size:14px;fill:#222}\
                 .label{paint-order:stroke;stroke:#fff;stroke-width:4px;stroke-linejoin:round}\
                 .title{font-size:20px;font-weight:bold}.column{font-size:16px;font-weight:bold}\
                 .dim{fill:#777}.bad{fill:#c22;font-weight:bold}.late{fill:#b60}\
                 .bar{stroke:#9ab;stroke-width:6px;stroke-linecap:round}.badbar{stroke:#e99}\
                 .from{fill:none;stroke:#2a7;stroke-width:2px}.badfrom{stroke:#c22}\
                 .lock{fill:none;stroke:#36c;stroke-width:2px;stroke-dasharray:7 4}";
    let marker = |id: &str, colour: &str| {
        format!("<marker id=\"{id}\" viewBox=\"0 0 10 10\" refX=\"9\" refY=\"5\" markerWidth=\"8\" markerHeight=\"8\" markerUnits=\"userSpaceOnUse\" orient=\"auto\"><path d=\"M0 1L10 5L0 9z\" fill=\"{colour}\"/></marker>\n")
    };
    let wanted = if wanted.is_empty() { String::new() } else { format!(": how {wanted} comes about") };
    [
        format!("<svg xmlns=\"http://www.w3.org/2000/svg\" width=\"{width}\" height=\"{height}\" viewBox=\"0 0 {width} {height}\">\n"),
        format!("<style>{style}</style>\n<defs>\n"),
        marker("good", "#2a7") + &marker("bad", "#c22") + &marker("lock", "#36c"),
        format!("</defs>\n<rect width=\"{width}\" height=\"{height}\" fill=\"#fff\"/>\n"),
        format!("<text class=\"title\" x=\"{MARGIN}\" y=\"36\">{}{}</text>\n", escaped(title), escaped(&wanted)),
        format!("<text class=\"dim\" x=\"{MARGIN}\" y=\"60\">Down the page: the steps. Hollow: issued. Full: committed. Arrow: the word that a read took.</text>\n"),
    ]
    .concat()
}

fn escaped(words: &str) -> String {
    words.replace('&', "&amp;").replace('<', "&lt;").replace('>', "&gt;")
}

impl Page<'_> {
    fn of(trace: &Trace) -> Page<'_> {
        let old: Vec<Vec<usize>> = (0..trace.processors).map(|p| first_words(trace, p)).collect();
        let top = WORDS + LINE * old.iter().map(Vec::len).max().unwrap_or(0) + HEAD;
        let mut page = Page { trace, columns: vec![], lanes: vec![], wide: vec![0; trace.processors], old, top };
        for (number, action) in trace.actions.iter().enumerate() {
            let taken: Vec<usize> = (0..number)
                .filter(|&other| trace.actions[other].processor == action.processor && end(trace, other) >= action.issued)
                .map(|other| page.lanes[other])
                .collect();
            let lane = (0..).find(|lane| !taken.contains(lane)).unwrap_or(0);
            page.lanes.push(lane);
            page.wide[action.processor] = page.wide[action.processor].max(lane + 1);
        }
        let mut left = MARGIN + NUMBERS;
        for p in 0..trace.processors {
            page.columns.push(left);
            let own = |&&(action, _): &&(usize, bool)| trace.actions[action].processor == p;
            let letters =
                trace.steps.iter().filter(own).map(|&(action, commits)| page.label(action, commits).0.chars().count()).max();
            left += LANE * (page.wide[p] + 1) + LETTER * letters.unwrap_or(0).max(14) + MARGIN;
        }
        page.columns.push(left);
        page
    }

    fn x(&self, action: usize) -> usize {
        self.columns[self.trace.actions[action].processor] + LANE / 2 + LANE * self.lanes[action]
    }

    /// The row of a step.
    fn row(&self, step: usize) -> usize {
        self.top + ROW * step - ROW / 2
    }

    /// Where the first word of a location stands for a column: over it, at its left edge.
    fn start(&self, p: usize, location: usize) -> (usize, usize) {
        let rank = self.old[p].iter().position(|&other| other == location).unwrap_or(0);
        (self.columns[p] - 8 - 7 * rank, WORDS + LINE * rank)
    }

    /// The column heads, the first words that reads took, and the step numbers.
    fn frame(&self, foot: usize) -> String {
        let column = |p: usize| {
            let (x, top) = (self.columns[p], self.top);
            let head = format!("<text class=\"column\" x=\"{x}\" y=\"{}\">p{p}</text>\n", top - 8);
            head + &format!("<path d=\"M{} {top}V{foot}\" stroke=\"#ddd\"/>\n", x - 32)
        };
        let word = |(p, location): (usize, usize)| {
            let ((x, y), word) = (self.start(p, location), self.trace.memory[location]);
            let node = format!("<circle cx=\"{x}\" cy=\"{y}\" r=\"5\" fill=\"#9ab\"/>");
            node + &format!("<text x=\"{}\" y=\"{}\">[{location}] = {word} at the start</text>\n", self.columns[p] + 6, y + 5)
        };
        let number = |n: usize| {
            let (x, y) = (MARGIN, self.row(n) + 5);
            format!("<text class=\"dim\" x=\"{x}\" y=\"{y}\" text-anchor=\"end\">{n}</text>\n")
        };
        let columns = (0..self.trace.processors).map(column);
        let words = (0..self.trace.processors).flat_map(|p| self.old[p].iter().map(move |&location| (p, location))).map(word);
        columns.chain(words).chain((1..=self.trace.steps.len()).map(number)).collect()
    }

    /// What each read took, and what each acquire stands behind.
    fn arrows(&self) -> String {
        let taken = |(number, action): (usize, &Action)| {
            let (class, marker) = if action.missed.is_some() { ("from badfrom", "bad") } else { ("from", "good") };
            let to = self.committed(number);
            Some(match action.source? {
                Source::Start => down(self.start(action.processor, action.location.unwrap_or(0)), to, class, marker),
                Source::Write(write) => arrow(self.committed(write), to, class, marker),
            })
        };
        let handed = labels::handed(self.trace).into_iter();
        let locks = handed.map(|(release, acquire)| arrow(self.committed(release), self.committed(acquire), "lock", "lock"));
        self.trace.actions.iter().enumerate().filter_map(taken).chain(locks).collect()
    }

    /// Where an action's commit stands.
    fn committed(&self, action: usize) -> (usize, usize) {
        (self.x(action), self.row(end(self.trace, action)))
    }

    /// A bar for each action, from its issue to its commit.
    fn bars(&self) -> String {
        let bar = |(number, action): (usize, &Action)| {
            let (x, from, to) = (self.x(number), self.row(action.issued), self.row(end(self.trace, number)));
            let (class, colour) = if action.missed.is_some() { ("bar badbar", "#c22") } else { ("bar", "#357") };
            let line = format!("<path class=\"{class}\" d=\"M{x} {from}V{to}\"/>");
            let issue =
                format!("<circle cx=\"{x}\" cy=\"{from}\" r=\"5\" fill=\"#fff\" stroke=\"{colour}\" stroke-width=\"2\"/>");
            let commit =
                action.committed.map_or(String::new(), |_| format!("<circle cx=\"{x}\" cy=\"{to}\" r=\"6\" fill=\"{colour}\"/>"));
            format!("{line}{issue}{commit}\n")
        };
        self.trace.actions.iter().enumerate().map(bar).collect()
    }

    /// The words of every step.
    fn words(&self) -> String {
        let word = |(n, &(action, commits)): (usize, &(usize, bool))| {
            let p = self.trace.actions[action].processor;
            let x = self.columns[p] + LANE * (self.wide[p] + 1);
            let (label, class) = self.label(action, commits);
            format!("<text class=\"label {class}\" x=\"{x}\" y=\"{}\">{}</text>\n", self.row(n) + 5, escaped(&label))
        };
        (1..).zip(&self.trace.steps).map(word).collect()
    }

    /// A step in words, and how they look.
    fn label(&self, number: usize, commits: bool) -> (String, &'static str) {
        let action = &self.trace.actions[number];
        if !commits {
            return (format!("{number}: {}", labels::issue(action)), "dim");
        }
        let done = format!("{number}: {}", labels::commit(action));
        match (labels::old(self.trace, action), action.ahead) {
            (Some(old), _) => (format!("{done}. {old}"), "bad"),
            (None, Some(_)) => (format!("{done}, ahead of its turn"), "late"),
            (None, None) => (done, ""),
        }
    }

    /// How the run ended, and what stood ordered.
    fn foot(&self, foot: usize, notes: &[String]) -> String {
        let ends = format!("ends with {}", self.trace.result);
        let lines = [ends, "what stood ordered:".to_string()].into_iter().chain(notes.iter().map(|note| format!("    {note}")));
        let line = |(n, words): (usize, String)| {
            let indent = words.len() - words.trim_start().len();
            format!("<text x=\"{}\" y=\"{}\">{}</text>\n", MARGIN + 5 * indent, foot + 24 * (n + 1), escaped(words.trim_start()))
        };
        lines.enumerate().map(line).collect()
    }
}

/// The locations whose first words a processor's reads took.
fn first_words(trace: &Trace, p: usize) -> Vec<usize> {
    let own = trace.actions.iter().filter(|action| action.processor == p && action.source == Some(Source::Start));
    own.filter_map(|action| action.location).collect::<BTreeSet<_>>().into_iter().collect()
}

/// The step of an action's commit, or the last of all.
fn end(trace: &Trace, action: usize) -> usize {
    trace.actions[action].committed.unwrap_or(trace.steps.len())
}

/// A bent arrow: from the left it comes in level, from the right from above, clear of the words of its row.
fn arrow((x, y): (usize, usize), (to_x, to_y): (usize, usize), class: &str, marker: &str) -> String {
    let middle = (y + to_y) / 2;
    let bend = match to_x > x {
        true => format!("{} {to_y} {} {to_y}", (x + to_x) / 2, to_x - 8),
        false => format!("{} {} {} {}", to_x + 40, to_y - 40, to_x + 6, to_y - 7),
    };
    format!("<path class=\"{class}\" d=\"M{x} {y}C{x} {middle} {bend}\" marker-end=\"url(#{marker})\"/>\n")
}

/// An arrow that goes down at the left of a column and turns in.
fn down((x, y): (usize, usize), (to_x, to_y): (usize, usize), class: &str, marker: &str) -> String {
    let end = to_x - 8;
    format!("<path class=\"{class}\" d=\"M{x} {y}V{}Q{x} {to_y} {end} {to_y}\" marker-end=\"url(#{marker})\"/>\n", to_y - 14)
}
