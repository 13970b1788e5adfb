//! What a dump holds, what is wrong with it and what a repair would do, in plain words.
use super::facts::{misfits, region, Facts, Frame, Home, Line, Verdict, PAGE_LINES};
use oaledva::dump::Dump;
use oaledva::{Broken, Rule, Shape, LINE_BYTES};
use std::fmt::Display;

/// How many of a list are told.
const TOLD: usize = 10;

/// All that there is to say of a dump.
pub fn report(dump: &Dump, verdict: &Verdict) -> String {
    let mut text = format!("Board   {}\n", board(dump.shape));
    let facts = Facts::of(dump);
    if let Some(facts) = &facts {
        text += &contents(facts);
    }
    text += &match dump.pending {
        None => "Tag     none pending\n".into(),
        Some(name) => format!("Tag     pending, line name {name:#x} ({})\n", region(name)),
    };
    text += &format!("\n{}\n", headline(verdict.broken));
    match (verdict.broken, &facts) {
        (None, _) => {}
        (Some(Broken { rule: Rule::Lengths, .. }), _) => {
            text += &format!("\n{}", indented(&misfits(dump)));
            text += "\nNothing else was checked. Dropping lines can't repair it.\n";
        }
        (Some(Broken { rule: Rule::PageTwice, place }), Some(facts)) => text += &page_twice(facts, place),
        (Some(broken), Some(facts)) => text += &broken_line(facts, broken),
        (Some(_), None) => {}
    }
    if let (Some(_), Some(facts), Some(_)) = (verdict.broken, &facts, &verdict.repaired) {
        text += &repair(facts, &verdict.dropped);
    }
    text
}

/// The board's four numbers.
pub fn board(shape: Shape) -> String {
    let Shape { frames, uncached, processes, lines } = shape;
    format!(
        "{} ({} uncached), {} and {}",
        counted(frames, "frame"),
        grouped(uncached),
        counted(processes, "process"),
        counted(lines, "line")
    )
}

/// Sound, or the rule that is broken, and where.
pub fn headline(broken: Option<Broken>) -> String {
    let Some(Broken { rule, place }) = broken else { return "The board is sound: it keeps all five rules.".into() };
    let (number, words) = (rule.number(), rule.words());
    match rule {
        Rule::Lengths => format!("Rule {number} is broken: {words}."),
        Rule::PageTwice => format!("Rule {number} is broken at frame {place}: {words}."),
        _ => format!("Rule {number} is broken at place {place}: {words}."),
    }
}

fn contents(facts: &Facts) -> String {
    let Shape { frames, uncached, lines, .. } = facts.shape();
    let (mut pages, mut free, mut nameless) = (0, 0, 0);
    for frame in uncached..frames {
        match facts.frame(frame) {
            Frame::Page { .. } => pages += 1,
            Frame::Free => free += 1,
            _ => nameless += 1,
        }
    }
    let mut text = format!("Frames  {} with a page, {} free", grouped(pages), grouped(free));
    if nameless != 0 {
        text += &format!(", {} whose word is not 0 and names no page", grouped(nameless));
    }
    let (held, changed) = facts.held();
    text += &format!("\nCache   {}; {} empty", held_words(held, changed), counted(lines - held, "place"));
    match facts.idle_records() {
        0 => {}
        1 => text += ", 1 of them with a record that holds nothing",
        idle => text += &format!(", {} of them with records that hold nothing", grouped(idle)),
    }
    text + "\n"
}

fn page_twice(facts: &Facts, frame: usize) -> String {
    let Frame::Page { page, .. } = facts.frame(frame) else { return String::new() };
    let frames = facts.frames_of_page(frame);
    let mut text = format!("\nPage {page:#x} has {}:\n", counted(frames.len(), "frame"));
    text += &told(frames, |&frame| {
        let (held, changed) = facts.held_of(frame);
        format!("frame {frame}: {}; {}", frame_words(facts, frame), held_words(held, changed))
    });
    let others: Vec<_> = facts.doubled_pages().into_iter().filter(|&(other, _)| other != page).collect();
    if !others.is_empty() {
        text += &format!("So has {}:\n", if others.len() == 1 { "another page" } else { "each of these" });
        text += &told(&others, |(page, frames)| format!("page {page:#x}: frames {}", numbers(frames)));
    }
    text + "\nLines were not checked. Dropping lines can't repair it: the dump doesn't say which frame is the page's.\n"
}

fn broken_line(facts: &Facts, broken: Broken) -> String {
    let mut text = line_words(facts, broken.place);
    if broken.rule == Rule::LineTwice {
        let others: Vec<usize> = facts.others(broken.place).collect();
        if let Some(&other) = others.first() {
            text += &line_words(facts, other);
        }
        if others.len() > 1 {
            text += &format!("\nThe same physical line is also held at {}.\n", numbers(&others[1..]));
        }
    }
    text
}

/// The line at a place, field by field.
fn line_words(facts: &Facts, place: usize) -> String {
    let Some(line) = facts.line(place) else { return format!("\nPlace {place} holds no line.\n") };
    let Line { name, physical, changed, write } = line;
    let mut text = format!("\nThe line at place {place}:\n");
    let mut field = |name: &str, words: &dyn Display| text += &format!("  {name:<13}  {words}\n");
    field("name", &format!("{name:#x} ({})", region(name)));
    field(
        "maps to",
        &match facts.home(name) {
            Home::Line { physical, write } => format!("{}, which {}", physical_line(physical), permission(write)),
            Home::Nowhere(why) => format!("nothing: {why}"),
        },
    );
    field("physical line", &at(physical));
    field("permission", &format!("it {}", permission(write)));
    field("changed", &if changed { "yes" } else { "no" });
    let (cache, memory) = facts.bytes(place, &line);
    if cache == memory {
        field("in the cache", &format!("{}, as in memory", hex(cache)));
    } else {
        field("in the cache", &hex(cache));
        field("in memory", &hex(memory));
        let marks = cache.iter().zip(memory).map(|(one, other)| if one == other { "  " } else { "^^" });
        field("", &marks.collect::<Vec<_>>().join(" ").trim_end());
    }
    text
}

fn repair(facts: &Facts, dropped: &[usize]) -> String {
    let mut text = format!(
        "\nA repair drops {} of {}: from then on what memory has counts.\n",
        grouped(dropped.len()),
        counted(facts.held().0, "line")
    );
    let differs = |place: &&usize| {
        let line = facts.line(**place);
        line.map(|line| facts.bytes(**place, &line)).is_some_and(|(cache, memory)| cache != memory)
    };
    text += &match dropped.iter().filter(differs).count() {
        0 => "Memory has the same bytes, so that nothing is lost.\n".into(),
        1 => "1 of them has bytes that memory has not, which no call shows any more.\n".into(),
        lost => format!("{} of them have bytes that memory has not, which no call shows any more.\n", grouped(lost)),
    };
    text + &told(dropped, |&place| {
        let name = facts.line(place).map_or(0, |line| line.name);
        let why: Vec<_> = facts.faults(place, Some(dropped)).iter().map(fault).collect();
        format!("place {place}, name {name:#x}: {}", why.join("; "))
    })
}

/// A rule that is broken, and how.
pub fn fault((rule, how): &(Rule, String)) -> String {
    format!("rule {}, {how}", rule.number())
}

/// What a frame's word says.
pub fn frame_words(facts: &Facts, frame: usize) -> String {
    match facts.frame(frame) {
        Frame::Uncached => "uncached".into(),
        Frame::Free => "free".into(),
        Frame::Page { page, write } => format!("page {page:#x}, which {}", permission(write)),
        Frame::Nameless => format!("its word, {:#x}, names no page", facts.word(frame)),
    }
}

/// How many lines of a frame the cache has.
pub fn held_words(held: usize, changed: usize) -> String {
    match (held, changed) {
        (0, _) => "no line held".into(),
        (_, 0) => format!("{} held, none changed", counted(held, "line")),
        _ => format!("{} held, {} changed", counted(held, "line"), grouped(changed)),
    }
}

pub fn permission(write: bool) -> &'static str {
    if write {
        "may be written"
    } else {
        "is read-only"
    }
}

pub fn physical_line(physical: u64) -> String {
    format!("physical line {}", at(physical))
}

/// A physical line, and where in memory it is.
fn at(physical: u64) -> String {
    format!("{physical:#x} (frame {}, line {})", physical / PAGE_LINES, physical % PAGE_LINES)
}

fn hex(bytes: &[u8]) -> String {
    debug_assert_eq!(bytes.len(), LINE_BYTES);
    bytes.iter().map(|byte| format!("{byte:02x}")).collect::<Vec<_>>().join(" ")
}

/// A line for each of a list, and how many there are besides.
fn told<T>(list: &[T], words: impl Fn(&T) -> String) -> String {
    let mut lines: Vec<String> = list.iter().take(TOLD).map(words).collect();
    if list.len() > TOLD {
        lines.push(format!("and {} more", grouped(list.len() - TOLD)));
    }
    indented(&lines)
}

fn indented(lines: &[String]) -> String {
    lines.iter().map(|line| format!("  {line}\n")).collect()
}

/// Numbers in a row, and how many there are besides.
pub fn numbers(list: &[usize]) -> String {
    let some: Vec<String> = list.iter().take(TOLD).map(usize::to_string).collect();
    match (some.split_last(), list.len() - some.len()) {
        (Some((last, [])), 0) => last.clone(),
        (Some((last, before)), 0) => format!("{} and {last}", before.join(", ")),
        (_, more) => format!("{} and {} more", some.join(", "), grouped(more)),
    }
}

/// So many of a thing.
pub fn counted(number: usize, thing: &str) -> String {
    let ending = match (number, thing.ends_with('s')) {
        (1, _) => "",
        (_, true) => "es",
        (_, false) => "s",
    };
    format!("{} {thing}{ending}", grouped(number))
}

/// A number with a comma before each three digits.
pub fn grouped(number: usize) -> String {
    match number {
        0..=999 => number.to_string(),
        _ => format!("{},{:03}", grouped(number / 1000), number % 1000),
    }
}
