//! A board as a picture: a cell for each frame and for each place of the cache, or for several where there are many.
use super::facts::{misfits, region, Facts, Frame, Verdict};
use super::words::{board, counted, fault, frame_words, grouped, headline, held_words, numbers, physical_line};
use oaledva::dump::Dump;
use oaledva::{Broken, Rule};
use std::ops::Range;

/// The most cells of a grid, and of a row.
const CELLS: usize = 4096;
const COLUMNS: usize = 64;

const MARGIN: usize = 24;
/// Left of a grid, for the number with which a row begins.
const LABELS: usize = 64;
/// From the left edge of the frames to that of the places.
const GRID_WIDTH: usize = LABELS + 640 + MARGIN;
const WIDTH: usize = MARGIN + 2 * GRID_WIDTH;

/// What a cell shows, from the least to the worst: of several the worst wins.
#[derive(Clone, Copy, Debug, PartialEq, Eq, PartialOrd, Ord)]
enum State {
    Free,
    Uncached,
    Page,
    Nameless,
    Held,
    Changed,
    Broken,
}

/// By the order of states: its colour, the mark that is drawn over it, and what it is. The colours differ in lightness, so that
/// they can be told apart in print and by everybody.
const STATES: [(State, &str, &str, &str); 7] = [
    (State::Free, "#ffffff", "", "free frame, empty place"),
    (State::Uncached, "url(#uncached)", "", "uncached frame, below U"),
    (State::Page, "#cfe4f5", "", "frame with a page, no line of it in the cache"),
    (State::Nameless, "#f7e06e", DOT, "frame whose word is not 0 and names no page"),
    (State::Held, "#5fa5d3", "", "place that holds a line; frame that has lines in the cache"),
    (State::Changed, "#0b3c78", "", "the same, and a line is changed: memory does not have it yet"),
    (State::Broken, "#f28e2b", CROSS, "broken: frame of a page that has two, place whose line breaks a rule"),
];

/// Marks, in a cell of 1 by 1.
const CROSS: &str = "M.18 .18L.82 .82M.82 .18L.18 .82";
const DOT: &str = "M.4 .5h.2";

struct Cell {
    state: State,
    /// What stands there.
    words: String,
}

struct Grid {
    heading: String,
    /// How many frames or places a cell is.
    each: usize,
    cells: Vec<Cell>,
    /// How many frames or places are in each state.
    counts: Vec<(State, usize)>,
    /// The cell of the frame or place that the checker names.
    named: Option<usize>,
}

impl Grid {
    fn of(
        thing: &str,
        note: &str,
        count: usize,
        named: Option<usize>,
        state: impl Fn(usize) -> State,
        words: impl Fn(usize) -> String,
    ) -> Grid {
        let states: Vec<State> = (0..count).map(state).collect();
        let counts: Vec<(State, usize)> = STATES.iter().map(|&(of, ..)| (of, tally(&states, of))).collect();
        let mut each = 1;
        while count.div_ceil(each) > CELLS {
            each *= 2;
        }
        let cells = states.chunks(each).enumerate().map(|(index, some)| {
            let first = index * each;
            let worst = *some.iter().max().expect("a cell is not empty");
            let words = match each {
                1 => words(first),
                _ => several(thing, first..first + some.len(), some, &words),
            };
            Cell { state: worst, words }
        });
        let cell = if each == 1 { String::new() } else { format!(", a cell is {} of them", grouped(each)) };
        Grid {
            heading: format!("{}{cell}{note}", counted(count, thing)),
            each,
            cells: cells.collect(),
            counts,
            named: named.map(|index| index / each),
        }
    }

    fn count(&self, state: State) -> usize {
        self.counts.iter().find(|(of, _)| *of == state).map_or(0, |&(_, count)| count)
    }

    /// Cells in a row: about as many as there are rows.
    fn columns(&self) -> usize {
        let mut columns = 1;
        while columns < COLUMNS && columns * columns < self.cells.len() {
            columns *= 2;
        }
        columns
    }

    /// The side of a cell.
    fn side(&self) -> usize {
        (640 / self.columns()).clamp(10, 56)
    }

    /// Whether each cell has room for its number.
    fn is_numbered(&self) -> bool {
        self.side() >= 28 && self.each == 1
    }

    fn height(&self) -> usize {
        self.cells.len().div_ceil(self.columns()) * self.side()
    }

    /// Where a cell stands.
    fn at(&self, cell: usize) -> (usize, usize) {
        (cell % self.columns() * self.side(), cell / self.columns() * self.side())
    }

    fn draw(&self, left: usize, top: usize) -> String {
        let side = self.side();
        let mut svg = text(left, top, 15, "bold", &self.heading);
        svg += &format!("<g transform=\"translate({} {})\">\n", left + LABELS, top + 14);
        let rows = self.cells.len().div_ceil(self.columns());
        for row in (0..rows).step_by(if side < 14 { 8 } else { 1 }) {
            let (x, y) = (-8, row * side + side / 2 + 4);
            let first = row * self.columns() * self.each;
            svg += &format!("<text x=\"{x}\" y=\"{y}\" font-size=\"11\" text-anchor=\"end\">{first}</text>\n");
        }
        for (state, colour, mark, _) in STATES {
            let of_state: Vec<usize> = (0..self.cells.len()).filter(|&cell| self.cells[cell].state == state).collect();
            if of_state.is_empty() {
                continue;
            }
            svg +=
                &format!("<g class=\"{}\" fill=\"{colour}\" stroke=\"#8c8c8c\" stroke-width=\".6\">\n", class(state));
            for &cell in &of_state {
                let ((x, y), side) = (self.at(cell), side - 1);
                let words = escaped(&self.cells[cell].words);
                svg += &format!("<path d=\"M{x} {y}h{side}v{side}h-{side}z\"><title>{words}</title></path>\n");
            }
            svg += "</g>\n";
            if !mark.is_empty() {
                let marked = of_state.iter().map(|&cell| match (self.at(cell), self.is_numbered()) {
                    (at, false) => drawn(mark, at, side - 1),
                    ((x, y), true) => drawn(mark, (x + side / 4, y + side * 3 / 10), side * 6 / 10), // beside its number
                });
                svg += &marked.collect::<String>();
            }
        }
        if self.is_numbered() {
            for (index, cell) in self.cells.iter().enumerate() {
                let ((x, y), fill) = (self.at(index), if cell.state == State::Changed { "#fff" } else { "#000" });
                let (x, y) = (x + 3, y + 11);
                svg += &format!("<text x=\"{x}\" y=\"{y}\" font-size=\"10\" fill=\"{fill}\">{index}</text>\n");
            }
        }
        if let Some(cell) = self.named.filter(|&cell| cell < self.cells.len()) {
            svg += &ring(self.at(cell), side - 1);
        }
        svg + "</g>\n"
    }
}

fn tally(states: &[State], of: State) -> usize {
    states.iter().filter(|&&state| state == of).count()
}

/// What stands in a cell of several: how many of each state, and the first that is broken.
fn several(thing: &str, range: Range<usize>, states: &[State], words: impl Fn(usize) -> String) -> String {
    let counts = STATES.iter().rev().map(|&(state, ..)| (state, tally(states, state))).filter(|&(_, count)| count != 0);
    let words_of = |state| if (thing, state) == ("place", State::Free) { "empty" } else { class(state) };
    let counts: Vec<String> = counts.map(|(state, count)| format!("{} {}", grouped(count), words_of(state))).collect();
    let broken = states.iter().position(|&state| state == State::Broken);
    let first = broken.map_or(String::new(), |at| format!("; the first broken one is {}", words(range.start + at)));
    format!("{thing}s {} to {}: {}{first}", range.start, range.end - 1, counts.join(", "))
}

/// The picture, as an SVG file.
pub fn picture(dump: &Dump, verdict: &Verdict) -> String {
    let Some(facts) = Facts::of(dump) else { return without_grids(dump, verdict) };
    let (frame, place) = match verdict.broken {
        Some(Broken { rule: Rule::PageTwice, place }) => (Some(place), None),
        Some(Broken { rule: Rule::LineTwice | Rule::Astray | Rule::Stale, place }) => (None, Some(place)),
        _ => (None, None),
    };
    // Where pages are doubled the library doesn't look at lines.
    let checked = !matches!(verdict.broken, Some(Broken { rule: Rule::PageTwice, .. }));
    let lines_of = |frame| if checked { facts.good_of(frame) } else { facts.held_of(frame) };
    let faults = |place| if checked { facts.faults(place, None) } else { Vec::new() };
    let frame_state = |frame| match (facts.frame(frame), lines_of(frame)) {
        _ if facts.frames_of_page(frame).len() > 1 => State::Broken,
        (_, (_, changed)) if changed != 0 => State::Changed,
        (_, (held, _)) if held != 0 => State::Held,
        (Frame::Nameless, _) => State::Nameless,
        (Frame::Page { .. }, _) => State::Page,
        (Frame::Free, _) => State::Free,
        (Frame::Uncached, _) => State::Uncached,
    };
    let frame_title = |frame: usize| {
        let (held, changed) = facts.held_of(frame);
        let frames = facts.frames_of_page(frame).len();
        let twice = if frames > 1 { format!("; rule 2, the page has {frames} frames") } else { String::new() };
        let broken = match held - lines_of(frame).0 {
            0 => String::new(),
            broken => format!(", {broken} of them broken"),
        };
        format!("frame {frame}: {}{twice}; {}{broken}", frame_words(&facts, frame), held_words(held, changed))
    };
    let place_state = |place| match facts.line(place) {
        None => State::Free,
        Some(_) if !faults(place).is_empty() => State::Broken,
        Some(line) if line.changed => State::Changed,
        Some(_) => State::Held,
    };
    let place_title = |place: usize| match facts.line(place) {
        None => format!("place {place}: empty"),
        Some(line) => {
            let changed = if line.changed { ", changed" } else { "" };
            let faults: String = faults(place).iter().map(|broken| format!("; {}", fault(broken))).collect();
            let (name, region, physical) = (line.name, region(line.name), physical_line(line.physical));
            format!("place {place}: name {name:#x} ({region}); {physical}{changed}{faults}")
        }
    };
    let shape = facts.shape();
    let frames = Grid::of("frame", "", shape.frames, frame, frame_state, frame_title);
    let note = if checked { "" } else { ", whose lines were not checked" };
    let places = Grid::of("place", note, shape.lines, place, place_state, place_title);

    let mut body = frames.draw(MARGIN, 128) + &places.draw(MARGIN + GRID_WIDTH, 128);
    let top = 128 + 14 + frames.height().max(places.height()) + 44;
    let (legend, bottom) = legend(&frames, &places, top);
    body += &legend;
    for (index, line) in list(&facts, verdict).iter().enumerate() {
        body += &text(MARGIN + GRID_WIDTH + LABELS, top + 24 * index, if index == 0 { 13 } else { 12 }, "normal", line);
    }
    let repair = match (verdict.broken, &verdict.repaired) {
        (None, _) => String::new(),
        (Some(_), None) => "Dropping lines can't repair it.".into(),
        (Some(_), Some(_)) => {
            let (dropped, held) = (verdict.dropped.len(), facts.held().0);
            format!("A repair drops {} of {}.", grouped(dropped), counted(held, "line"))
        }
    };
    svg(verdict, &[format!("A board of {}.", board(dump.shape)), repair], &body, bottom + MARGIN)
}

/// What is broken, beside the legend: as many lines as it has, with a heading.
fn list(facts: &Facts, verdict: &Verdict) -> Vec<String> {
    let (heading, all): (&str, Vec<String>) = match verdict.broken {
        None => return Vec::new(),
        Some(Broken { rule: Rule::PageTwice, .. }) => {
            let pages = facts.doubled_pages().into_iter();
            let words = |(page, frames): (u64, &[usize])| format!("page {page:#x}: frames {}", numbers(frames));
            ("pages with two frames (rule 2)", pages.map(words).collect())
        }
        Some(_) => {
            let words = |&place: &usize| {
                let first = facts.faults(place, Some(&verdict.dropped)).first().map(fault);
                format!("place {place}: {}", first.unwrap_or_default())
            };
            ("lines that a repair drops", verdict.dropped.iter().map(words).collect())
        }
    };
    let mut lines = vec![heading.to_string()];
    lines.extend(all.iter().take(STATES.len()).cloned());
    if all.len() > STATES.len() {
        lines.push(format!("and {} more", grouped(all.len() - STATES.len())));
    }
    lines
}

/// Of a board whose lengths or numbers are wrong: there is nothing to draw.
fn without_grids(dump: &Dump, verdict: &Verdict) -> String {
    let wrong = misfits(dump);
    let mut body = String::new();
    for (index, line) in wrong.iter().enumerate() {
        body += &text(MARGIN, 136 + 24 * index, 15, "normal", line);
    }
    let lines = [
        format!("A board of {}.", board(dump.shape)),
        "Nothing else was checked. Dropping lines can't repair it.".into(),
    ];
    svg(verdict, &lines, &body, 136 + 24 * wrong.len() + MARGIN)
}

/// The counts of both grids, state by state.
fn legend(frames: &Grid, places: &Grid, top: usize) -> (String, usize) {
    let (swatch, words, numbers) = (MARGIN + LABELS, MARGIN + LABELS + 32, [660, 760]);
    let mut svg = String::from("<g class=\"legend\">\n");
    for (x, heading) in numbers.into_iter().zip(["frames", "places"]) {
        svg += &format!("<text x=\"{x}\" y=\"{top}\" font-size=\"13\" text-anchor=\"end\">{heading}</text>\n");
    }
    let mut y = top + 24;
    for (state, colour, mark, meaning) in STATES {
        let counts = [frames.count(state), places.count(state)];
        let (corner, side) = (y - 14, 18);
        svg +=
            &format!("<path d=\"M{swatch} {corner}h{side}v{side}h-{side}z\" fill=\"{colour}\" stroke=\"#8c8c8c\"/>\n");
        if !mark.is_empty() {
            svg += &drawn(mark, (swatch, corner), side);
        }
        svg += &text(words, y, 13, "normal", meaning);
        let of_frames_alone = [State::Uncached, State::Page, State::Nameless].contains(&state);
        for ((x, count), grid) in numbers.into_iter().zip(counts).zip(["frames", "places"]) {
            let count = if grid == "places" && of_frames_alone { "–".into() } else { grouped(count) };
            let class = class(state);
            svg += &format!(
                "<text x=\"{x}\" y=\"{y}\" font-size=\"13\" text-anchor=\"end\" class=\"{grid} {class}\">{count}</text>\n"
            );
        }
        y += 24;
    }
    if frames.named.or(places.named).is_some() {
        svg += &ring((swatch, y - 14), 18);
        svg +=
            &text(words, y, 13, "normal", "the frame or place that the checker names, the lowest that breaks the rule");
        y += 24;
    }
    if frames.each > 1 || places.each > 1 {
        svg +=
            &text(words, y, 13, "normal", "A cell that is several shows the worst of them: the lowest in this list.");
        y += 24;
    }
    (svg + "</g>\n", y)
}

fn svg(verdict: &Verdict, lines: &[String], body: &str, height: usize) -> String {
    let headline = headline(verdict.broken);
    let mut svg = format!(
        "<?xml version=\"1.0\" encoding=\"UTF-8\"?>\n<svg xmlns=\"http://www.w3.org/2000/svg\" viewBox=\"0 0 {WIDTH} {height}\" \
         font-family=\"sans-serif\" role=\"img\">\n<title>{}</title>\n",
        escaped(&headline)
    );
    svg += "<defs><pattern id=\"uncached\" width=\"6\" height=\"6\" patternUnits=\"userSpaceOnUse\">\
            <path d=\"M0 0h6v6h-6z\" fill=\"#d4d4d4\"/><path d=\"M0 6L6 0\" stroke=\"#8c8c8c\" stroke-width=\"1\"/></pattern></defs>\n";
    svg += &format!("<path d=\"M0 0h{WIDTH}v{height}h-{WIDTH}z\" fill=\"#fff\"/>\n");
    svg += &text(MARGIN, 40, 22, "bold", &headline);
    for (index, line) in lines.iter().enumerate() {
        svg += &text(MARGIN, 68 + 22 * index, 15, "normal", line);
    }
    svg + body + "</svg>\n"
}

fn text(x: usize, y: usize, size: usize, weight: &str, words: &str) -> String {
    let words = escaped(words);
    format!("<text x=\"{x}\" y=\"{y}\" font-size=\"{size}\" font-weight=\"{weight}\">{words}</text>\n")
}

/// A mark over a cell, as wide as can be seen.
fn drawn(mark: &str, (x, y): (usize, usize), side: usize) -> String {
    format!(
        "<path d=\"{mark}\" transform=\"translate({x} {y}) scale({side})\" fill=\"none\" stroke=\"#000\" stroke-width=\".16\" \
         stroke-linecap=\"round\" pointer-events=\"none\"/>\n"
    )
}

/// A heavy frame around a cell.
fn ring((x, y): (usize, usize), side: usize) -> String {
    let (x, y, side) = (x as isize - 2, y as isize - 2, side + 4);
    format!(
        "<path d=\"M{x} {y}h{side}v{side}h-{side}z\" fill=\"none\" stroke=\"#000\" stroke-width=\"3\" \
         pointer-events=\"none\"/>\n"
    )
}

fn class(state: State) -> &'static str {
    match state {
        State::Uncached => "uncached",
        State::Free => "free",
        State::Page => "mapped",
        State::Nameless => "nameless",
        State::Held => "held",
        State::Changed => "changed",
        State::Broken => "broken",
    }
}

/// As XML has it.
fn escaped(words: &str) -> String {
    words.replace('&', "&amp;").replace('<', "&lt;").replace('>', "&gt;").replace('"', "&quot;")
}
