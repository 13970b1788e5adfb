// The Rust programs of the READMEs: build.rs has put each into a module of its own, with a test that runs it. And README's
// tables of limits, of marks and of reasons, against the crate's and the header's.
#![deny(warnings)]

#[cfg(test)]
include!(concat!(env!("OUT_DIR"), "/programs.rs"));

/// A number with a comma after each three digits.
#[cfg(test)]
fn written(number: usize) -> String {
    match number {
        0..=999 => number.to_string(),
        _ => format!("{},{:03}", written(number / 1000), number % 1000),
    }
}

#[test]
fn limits_are_the_crate_s() {
    use oaledva::Shape;
    let readme = include_str!("../../README.md");
    for (number, most, end) in [
        ("frames, F", Shape::FRAMES_MAX, ""),
        ("processes, P", Shape::PROCESSES_MAX, ""),
        ("lines, L", Shape::LINES_MAX, ", a power of two"),
    ] {
        let row = format!("| {number} | 1 to {}{end} |", written(most));
        assert!(readme.lines().any(|line| line.starts_with(&row)), "README.md has no row {row}");
    }
}

#[test]
fn marks_are_the_crate_s_and_the_header_s() {
    use oaledva::Mark;
    let (readme, header) = (include_str!("../../README.md"), include_str!("../../include/oaledva.h"));
    for number in 0..=4 {
        let (begins, ends) = (format!("| {number} | "), format!("` | `Mark::{:?}` |", Mark::of(number)));
        let rows = readme.lines().filter(|line| line.starts_with(&begins));
        let in_c = rows.filter_map(|row| row.strip_suffix(&ends)?.rsplit_once('`')).map(|(_, name)| name).next();
        let name = in_c.unwrap_or_else(|| panic!("README.md has no row {begins}...{ends}"));
        assert!(header.contains(&format!("\n    {name} = {number}")), "README.md names mark {number} {name} in C");
    }
}

/// But for the one that is no fault of a log.
#[test]
fn reasons_are_the_crate_s() {
    use oaledva::log::Reason;
    let readme = include_str!("../../README.md");
    for reason in (2..=6).map(|number| Reason::of(number).unwrap()) {
        let row = format!("| {} | ", reason.words());
        assert!(readme.lines().any(|line| line.starts_with(&row)), "README.md has no row {row}");
    }
}
