// The program that inspects dumps, in this process: what it writes of the sample dumps, its exit codes, the repaired dumps, its
// pictures, and what it says of files and options that are wrong. The sample dumps in examples/dumps are made here, too:
//   cargo test -p oaledva --test inspect -- --ignored writes_the_sample_dumps
#[allow(dead_code)]
#[path = "../examples/inspect/main.rs"]
mod program;

use oaledva::dump::Dump;
use oaledva::{Board, Broken, Rule, Shape};
use program::{inspect, options, picture, report, Options, Verdict, BROKEN, SOUND, USAGE, WRONG};
use std::collections::BTreeMap;
use std::ffi::OsString;
use std::fs;
use std::path::{Path, PathBuf};

const PAGE: u64 = 0x200000;
/// Of a line name.
const PREFIX_1: u64 = 1 << 28;

// ---- the sample dumps

/// Name, dump, the rule that is broken, and whether there is a picture of it.
type Sample = (&'static str, Dump, Option<Broken>, bool);

/// 01's session, to its end.
fn session() -> Dump {
    let mut board = Board::new(Shape { frames: 4, uncached: 1, processes: 2, lines: 2 }).unwrap();
    board.map(PAGE, 1, true).unwrap();
    board.attach(0, 0, 2048, true).unwrap();
    board.store(0, 4, 0, 50).unwrap();
    for address in [3, 32, 3] {
        board.load(0, 1, address).unwrap();
    }
    assert!(board.load(1, 1, 3).is_err());
    board.unmap(PAGE).unwrap();
    assert!(board.load(0, 1, 3).is_err());
    board.map(PAGE, 1, false).unwrap();
    board.load(0, 1, 3).unwrap();
    assert!(board.store(0, 1, 3, 1).is_err());
    Dump::of(&board).unwrap()
}

/// A page in frame 1, which may be written, and in frame 0 nothing; eight lines, of which the page has three: the first is
/// changed. Frame 0 has one, under prefix 1.
fn running() -> Board {
    let mut board = Board::new(Shape { frames: 2, uncached: 0, processes: 1, lines: 8 }).unwrap();
    board.map(PAGE, 1, true).unwrap();
    board.attach(0, 0, 2048, true).unwrap();
    for line in 0..3 {
        board.store(0, 4, 16 * line, 100 + line).unwrap();
    }
    board.flush_all().unwrap();
    for line in 0..3 {
        board.load(0, 4, 16 * line).unwrap();
    }
    board.store(0, 4, 0, 50).unwrap();
    board.supervisor_load(1, (1 << 32) + 16 * 4).unwrap();
    board
}

/// Puts a valid record at its place.
fn put(dump: &mut Dump, name: u64, physical: u64, changed: bool, write: bool) {
    let place = (name % dump.shape.lines as u64) as usize;
    let info = physical * 8 + u64::from(changed) * 4 + u64::from(write) * 2 + 1;
    dump.records[2 * place..][..2].copy_from_slice(&[name, info]);
}

fn samples() -> Vec<Sample> {
    let broken = |rule, place| Some(Broken { rule, place });
    let mut running = running();
    let base = Dump::of(&running).unwrap();
    running.tag(PAGE * 256 + 5).unwrap();
    let tagged = Dump::of(&running).unwrap();

    let mut lengths = base.clone();
    lengths.shape.lines = 6;
    lengths.slots.truncate(500);
    lengths.memory.truncate(4096);

    // The page has frame 0 too.
    let mut page_twice = base.clone();
    page_twice.words[0] = PAGE * 4 + 1;

    // The page's fourth line claims the physical line of its third.
    let mut line_twice = base.clone();
    put(&mut line_twice, PAGE * 256 + 3, 256 + 2, false, true);
    line_twice.cache.copy_within(16 * 2..16 * 3, 16 * 3);

    // Lines that are not where their names map to, each in another way.
    let mut astray = base.clone();
    put(&mut astray, PAGE * 256 + 1, 256 + 1, true, false);
    put(&mut astray, PAGE * 256 + 3, 3, false, true);
    put(&mut astray, (PAGE + 1) * 256 + 5, 256 + 5, false, true);
    put(&mut astray, PREFIX_1 + 256 + 6, 256 + 6, false, true);
    put(&mut astray, 0xFFC0000007, 7, true, true);
    astray.cache[16..20].copy_from_slice(&[0, 0, 0, 77]);

    // A line whose mark is lost, and a byte of memory that has changed behind the cache's back.
    let mut stale = base.clone();
    stale.records[1] -= 4;
    stale.memory[16 * (256 + 2) + 15] = 0xFF;

    // So many that not all are told.
    let mut many = Dump::of(&Board::new(Shape { frames: 2, uncached: 1, processes: 1, lines: 64 }).unwrap()).unwrap();
    many.words[1] = 2; // not free, and no page
    for line in 0..24 {
        put(&mut many, PAGE * 256 + line, 256 + line / 2, line % 3 == 0, true);
        many.cache[16 * line as usize] = line as u8;
    }
    many.records[2 * 40..][..2].copy_from_slice(&[1, 1]); // it stands at another place than its own

    vec![
        ("session", session(), None, false),
        ("tagged", tagged, None, true),
        ("lengths", lengths, broken(Rule::Lengths, 0), false),
        ("page-twice", page_twice, broken(Rule::PageTwice, 0), false),
        ("line-twice", line_twice, broken(Rule::LineTwice, 2), false),
        ("astray", astray, broken(Rule::Astray, 1), true),
        ("stale", stale, broken(Rule::Stale, 0), false),
        ("many", many, broken(Rule::LineTwice, 0), false),
    ]
}

fn folder() -> PathBuf {
    Path::new(env!("CARGO_MANIFEST_DIR")).join("../examples/dumps")
}

/// The files of the sample dumps, by name.
fn sample_files() -> BTreeMap<String, Vec<u8>> {
    let mut files = BTreeMap::new();
    for (name, mut dump, _, drawn) in samples() {
        let verdict = Verdict::of(&mut dump);
        files.insert(format!("{name}.dump"), dump.to_bytes());
        files.insert(format!("{name}.out"), report(&dump, &verdict).into_bytes());
        if drawn {
            files.insert(format!("{name}.svg"), picture(&dump, &verdict).into_bytes());
        }
    }
    files
}

#[test]
#[ignore = "writes the files of examples/dumps"]
fn writes_the_sample_dumps() {
    for (name, bytes) in sample_files() {
        fs::write(folder().join(name), bytes).unwrap();
    }
}

#[test]
fn the_sample_dumps_are_these() {
    let mut there = BTreeMap::new();
    for file in fs::read_dir(folder()).unwrap() {
        let path = file.unwrap().path();
        there.insert(path.file_name().unwrap().to_str().unwrap().to_string(), fs::read(&path).unwrap());
    }
    let readme = String::from_utf8(there.remove("README.md").expect("README.md")).unwrap();
    let files = sample_files();
    assert_eq!(there.keys().collect::<Vec<_>>(), files.keys().collect::<Vec<_>>());
    for (name, bytes) in files {
        assert!(there[&name] == bytes, "{name} is another: this file's heading says how it is made");
    }
    for (name, _, broken, _) in samples() {
        let rule = broken.map_or("sound".into(), |broken| format!("rule {}", broken.rule.number()));
        let row = format!("| `{name}` | {rule} | ");
        assert!(readme.lines().any(|line| line.starts_with(&row)), "README.md has no row {row}");
    }
}

/// docs/DUMPS.md shows what is told of a sample, and the header of another, number by number.
#[test]
fn the_document_shows_the_samples() {
    let document = Path::new(env!("CARGO_MANIFEST_DIR")).join("../docs/DUMPS.md");
    let document = fs::read_to_string(document).unwrap();
    let told = fs::read_to_string(folder().join("astray.out")).unwrap();
    assert!(
        document.contains(&format!("\n```text\n{told}```\n")),
        "docs/DUMPS.md shows something else than astray.out"
    );
    let header = fs::read(folder().join("tagged.dump")).unwrap();
    for (index, number) in header[..96].chunks(8).enumerate() {
        let bytes: Vec<String> = number.iter().map(|byte| format!("{byte:02x}")).collect();
        let line = format!("\n{:>2}  {}  ", 8 * index, bytes.join(" "));
        assert!(document.contains(&line), "docs/DUMPS.md has no line{line}");
    }
}

// ---- the program

/// A folder of its own for each test, gone after it.
struct Folder(PathBuf);

impl Folder {
    fn new(test: &str) -> Folder {
        let path = Path::new(env!("CARGO_TARGET_TMPDIR")).join(format!("inspect-{test}-{}", std::process::id()));
        fs::create_dir_all(&path).unwrap();
        Folder(path)
    }

    fn file(&self, name: &str) -> OsString {
        self.0.join(name).into()
    }
}

impl Drop for Folder {
    fn drop(&mut self) {
        let _ = fs::remove_dir_all(&self.0);
    }
}

/// The exit code, and what it writes to standard output and to standard error.
fn run(options: &Options) -> (u8, String, String) {
    let (mut out, mut err) = (Vec::new(), Vec::new());
    let code = inspect(options, &mut out, &mut err);
    (code, String::from_utf8(out).unwrap(), String::from_utf8(err).unwrap())
}

fn only(dump: OsString) -> Options {
    Options { dump, ..Options::default() }
}

#[test]
fn the_sample_dumps_are_told_drawn_and_repaired() {
    let here = Folder::new("samples");
    for (name, dump, broken, _) in samples() {
        let file: OsString = folder().join(format!("{name}.dump")).into();
        let expected = fs::read_to_string(folder().join(format!("{name}.out"))).unwrap();
        let code = if broken.is_none() { SOUND } else { BROKEN };
        assert_eq!(run(&only(file.clone())), (code, expected.clone(), "".into()), "{name}");
        let rule =
            broken.map_or("The board is sound".into(), |broken| format!("Rule {} is broken", broken.rule.number()));
        assert!(expected.contains(&rule), "{name}");

        let (out, svg) = (here.file(&format!("{name}.dump")), here.file(&format!("{name}.svg")));
        let all = Options { dump: file.clone(), repair: Some(out.clone()), svg: Some(svg.clone()) };
        let (code, text, words) = run(&all);
        well_formed(&fs::read_to_string(&svg).unwrap());
        if broken.is_some_and(|broken| !broken.rule.is_mended()) {
            let said = format!(
                "inspect: {} can't be repaired: nothing is written to {}\n",
                file.to_string_lossy(),
                out.to_string_lossy()
            );
            assert_eq!((code, text, words), (BROKEN, expected, said), "{name}");
            assert!(fs::metadata(&out).is_err(), "{name}: something was written");
            continue;
        }
        let said = format!("The repaired dump is in {}.\n", out.to_string_lossy());
        assert_eq!((code, text, words), (SOUND, expected + &said, "".into()), "{name}");
        let mut repaired = Dump::read(fs::File::open(&out).unwrap()).unwrap();
        assert_eq!(repaired.lent().check(), Ok(()), "{name}");
        let mut by_hand = dump.clone();
        by_hand.lent().repair().unwrap();
        assert!(repaired == by_hand && (broken.is_some() || repaired == dump), "{name}");
        assert_eq!(run(&only(out)).0, SOUND);
    }
}

#[test]
fn a_file_that_is_no_dump_is_told() {
    let here = Folder::new("files");
    let bytes = session().to_bytes();
    let file = here.file("board.dump");
    let path = file.to_string_lossy().into_owned();
    for (bytes, said) in [
        (&b""[..], "dump refused at byte 0: the dump is cut"),
        (b"OALDUMB!", "dump refused at byte 6: a dump begins with other bytes"),
        (b"OALDUMP\x02", "dump refused at byte 7: a version that is not known"),
        (&bytes[..20000], "dump refused at byte 20000: the dump is cut"),
    ] {
        fs::write(&file, bytes).unwrap();
        let out = here.file("out");
        let all = Options { dump: file.clone(), repair: Some(out.clone()), svg: Some(out.clone()) };
        assert_eq!(run(&only(file.clone())), (WRONG, "".into(), format!("inspect: {path}: {said}\n")));
        assert_eq!(run(&Options { svg: None, ..all }).0, WRONG);
        assert!(fs::metadata(&out).is_err());
    }
    let none = here.file("none.dump");
    let said = format!("inspect: cannot read {}: No such file or directory (os error 2)\n", none.to_string_lossy());
    assert_eq!(run(&only(none)), (WRONG, "".into(), said));
    let (code, out, said) = run(&only(here.0.clone().into()));
    assert!((code, &out[..]) == (WRONG, "") && said.contains("cannot read") && said.contains("directory"), "{said}");
}

#[test]
fn what_cannot_be_written_is_told() {
    let here = Folder::new("outputs");
    let (file, nowhere) = (here.file("board.dump"), here.file("none/out"));
    fs::write(&file, session().to_bytes()).unwrap();
    let given = only(file.clone());
    let said = format!("inspect: cannot write {}: No such file or directory (os error 2)\n", nowhere.to_string_lossy());
    for options in [
        Options { repair: Some(nowhere.clone()), ..only(file.clone()) },
        Options { svg: Some(nowhere.clone()), ..only(file.clone()) },
    ] {
        let (code, out, words) = run(&options);
        assert_eq!((code, words), (WRONG, said.clone()));
        assert_eq!(out, run(&given).1);
    }
    // Nothing is written over the dump, nor one output over the other.
    let (here_too, out) = (here.file("./board.dump"), here.file("out"));
    for (repair, svg, over) in
        [(Some(&file), None, &file), (None, Some(&here_too), &file), (Some(&out), Some(&out), &out)]
    {
        let options = Options { dump: file.clone(), repair: repair.cloned(), svg: svg.cloned() };
        let said = format!("inspect: {} would be written over\n", over.to_string_lossy());
        assert_eq!(run(&options), (WRONG, "".into(), said));
    }
    assert!(fs::read(&file).unwrap() == session().to_bytes() && fs::metadata(&out).is_err());
    // A file that is full, and an output that nobody reads.
    let full = Options { repair: Some("/dev/full".into()), ..only(file.clone()) };
    let (code, _, said) = run(&full);
    assert!(code == WRONG && said.starts_with("inspect: cannot write /dev/full: "), "{said}");
    struct Closed(std::io::ErrorKind);
    impl std::io::Write for Closed {
        fn write(&mut self, _: &[u8]) -> std::io::Result<usize> {
            Err(self.0.into())
        }
        fn flush(&mut self) -> std::io::Result<()> {
            Err(self.0.into())
        }
    }
    let mut said = Vec::new();
    let repaired = Options { repair: Some(out.clone()), ..only(file.clone()) };
    assert_eq!(inspect(&repaired, &mut Closed(std::io::ErrorKind::BrokenPipe), &mut said), SOUND);
    assert!(said.is_empty() && fs::read(&out).unwrap() == session().to_bytes());
    assert_eq!(inspect(&given, &mut Closed(std::io::ErrorKind::Other), &mut said), WRONG);
    assert!(String::from_utf8(said).unwrap().starts_with("inspect: cannot write: "));
}

#[test]
fn options_are_few() {
    let given = |words: &[&str]| options(words.iter().map(Into::into));
    let file = |name: &str| Some(OsString::from(name));
    assert_eq!(given(&["a"]), Ok(Some(only("a".into()))));
    assert_eq!(given(&["-"]), Ok(Some(only("-".into()))));
    let all = Options { dump: "a".into(), repair: file("b"), svg: file("c") };
    assert_eq!(given(&["--svg", "c", "a", "--repair", "b"]), Ok(Some(all)));
    assert_eq!((given(&["-h"]), given(&["a", "--help"])), (Ok(None), Ok(None)));
    for (words, said) in [
        (&[][..], "no dump"),
        (&["a", "b"], "one dump at a time"),
        (&["--png", "a"], "unknown option '--png'"),
        (&["a", "--repair"], "--repair takes a file"),
        (&["a", "--svg"], "--svg takes a file"),
        (&["a", "--svg", "b", "--svg", "c"], "--svg is there twice"),
    ] {
        assert_eq!(given(words), Err(said.into()));
    }
    for code in [SOUND, BROKEN, WRONG] {
        assert!(USAGE.contains(&format!("{code} ")));
    }
}

/// Any words at all are told and drawn.
#[test]
fn wild_dumps_are_told_and_drawn() {
    let mut state: u64 = 7;
    let mut next = || {
        state = state.wrapping_mul(6364136223846793005).wrapping_add(1442695040888963407);
        state >> 20
    };
    let mut rules = BTreeMap::new();
    for round in 0..400 {
        let few = |number: u64, most: u64| (number % most) as usize;
        let frames = 1 + few(next(), 3);
        let lines = 1 << few(next(), 6);
        let shape = Shape { frames, uncached: few(next(), 2), processes: 1, lines };
        let mut dump = Dump::of(&Board::new(shape).unwrap()).unwrap();
        for word in &mut dump.words {
            *word = match next() % 5 {
                0 => 0,
                1 => next() << 30,
                _ => (PAGE + next() % 3) * 4 + 1 + 2 * (next() % 2),
            };
        }
        for place in 0..lines {
            let name = match next() % 8 {
                0 => next() << 24,
                1 => PREFIX_1 + next() % 1024,
                2 => next() % 1024,
                3 => 0xFFC0000000 + next() % 1024,
                _ => (PAGE + next() % 3) * 256 + next() % 256,
            };
            let name = name - name % lines as u64 + place as u64;
            let physical = next() % (256 * frames as u64 + 20);
            dump.records[2 * place] = name;
            dump.records[2 * place + 1] =
                if round % 2 == 0 { physical * 8 + next() % 8 } else { (next() << 24) | (next() % 8) };
            dump.cache[16 * place] = (next() % 2) as u8;
        }
        if round % 10 == 9 {
            dump.shape = Shape { frames: next() as usize, uncached: next() as usize, processes: 0, lines: usize::MAX };
        }
        let verdict = Verdict::of(&mut dump);
        *rules.entry(verdict.broken.map(|broken| broken.rule.number())).or_insert(0) += 1;
        let text = report(&dump, &verdict);
        let fault = verdict.broken.map(|broken| format!("Rule {} is broken", broken.rule.number()));
        assert!(text.contains(&fault.unwrap_or("The board is sound".into())), "{text}");
        well_formed(&picture(&dump, &verdict));
        if let Some(records) = verdict.repaired {
            // Each line that the repair drops has a reason in words.
            let told = text.lines().filter(|line| line.starts_with("  place ")).all(|line| line.contains(": rule "));
            assert!(told, "{text}");
            dump.records = records;
            assert_eq!(dump.lent().check(), Ok(()));
        }
    }
    assert!(rules.len() >= 5, "{rules:?}");
}

// ---- pictures

/// Elements are closed in order, attributes quoted, and no sign is bare that XML keeps for itself.
fn well_formed(svg: &str) {
    let rest = svg.strip_prefix("<?xml version=\"1.0\" encoding=\"UTF-8\"?>\n<svg ").expect("an SVG file");
    assert!(rest.contains(" viewBox=\"0 0 "));
    let mut open: Vec<&str> = Vec::new();
    for part in svg.split('<').skip(2) {
        let (tag, text) = part.split_once('>').unwrap_or_else(|| panic!("no end: {part}"));
        assert!(!text.contains('>'), "{part}");
        for entity in text.split('&').skip(1).chain(tag.split('&').skip(1)) {
            assert!(["amp;", "lt;", "gt;", "quot;"].iter().any(|name| entity.starts_with(name)), "{part}");
        }
        if let Some(name) = tag.strip_prefix('/') {
            assert_eq!(open.pop(), Some(name), "{part}");
            continue;
        }
        let (inner, alone) = tag.strip_suffix('/').map_or((tag, false), |inner| (inner, true));
        let name = inner.split(' ').next().unwrap();
        assert!(inner.matches('"').count() % 2 == 0, "{part}");
        for (index, outside) in inner[name.len()..].split('"').enumerate().filter(|(index, _)| index % 2 == 0) {
            assert!(index % 2 == 1 || outside.trim().is_empty() || outside.ends_with('='), "{part}");
        }
        if !alone {
            open.push(name);
        }
    }
    assert!(open.is_empty() && svg.ends_with("</svg>\n"), "{open:?} stay open");
}

/// How many cells a picture has of each state, frames and places together.
fn cells(svg: &str) -> BTreeMap<String, usize> {
    let mut cells = BTreeMap::new();
    for group in svg.split("<g class=\"").skip(1) {
        let (state, rest) = group.split_once('"').unwrap();
        let inside = rest.split("</g>").next().unwrap();
        *cells.entry(state.to_string()).or_insert(0) += inside.matches("<title>").count();
    }
    cells.remove("legend");
    cells
}

/// What the legend says: frames and places of a state.
fn counted(svg: &str, state: &str) -> [usize; 2] {
    ["frames", "places"].map(|grid| {
        let (_, rest) = svg.split_once(&format!("class=\"{grid} {state}\">")).unwrap();
        let number = rest.split('<').next().unwrap().replace(',', "");
        if number == "–" {
            0
        } else {
            number.parse().unwrap()
        }
    })
}

const STATES: [&str; 7] = ["uncached", "free", "mapped", "nameless", "held", "changed", "broken"];

#[test]
fn a_picture_counts_what_it_draws() {
    for (name, mut dump, broken, _) in samples() {
        let verdict = Verdict::of(&mut dump);
        let svg = picture(&dump, &verdict);
        if broken.is_some_and(|broken| broken.rule == Rule::Lengths) {
            assert!(cells(&svg).is_empty() && svg.contains("L, the number of lines, is 6"));
            continue;
        }
        let (cells, mut sums) = (cells(&svg), [0, 0]);
        for state in STATES {
            let [frames, places] = counted(&svg, state);
            assert_eq!(cells.get(state).copied().unwrap_or(0), frames + places, "{name}: {state}");
            sums = [sums[0] + frames, sums[1] + places];
        }
        assert_eq!(sums, [dump.shape.frames, dump.shape.lines], "{name}");
        assert_eq!(counted(&svg, "broken") != [0, 0], broken.is_some(), "{name}");
    }
    let (_, mut astray, ..) = samples().remove(5);
    let verdict = Verdict::of(&mut astray);
    let svg = picture(&astray, &verdict);
    assert_eq!((counted(&svg, "broken"), verdict.dropped), ([0, 5], vec![1, 3, 5, 6, 7]));
    let title = "<title>place 3: name 0x20000003 (page 0x200000, line 3); physical line 0x3 (frame 0, line 3); rule 4, its name \
                 maps to physical line 0x103 (frame 1, line 3)</title>";
    assert!(svg.contains(title), "{svg}");
}

/// A board of any size has a picture of bounded size: a cell is several frames, or places.
#[test]
fn a_large_board_has_a_picture_of_bounded_size() {
    let mut dump = Dump::of(&Board::new(Shape { frames: 1, uncached: 0, processes: 1, lines: 8192 }).unwrap()).unwrap();
    put(&mut dump, PREFIX_1 + 255, 255, true, true);
    put(&mut dump, PREFIX_1 + 8193, 1, true, true);
    let verdict = Verdict::of(&mut dump);
    let svg = picture(&dump, &verdict);
    well_formed(&svg);
    assert_eq!((counted(&svg, "changed"), counted(&svg, "broken")), ([1, 1], [0, 1]));
    assert!(svg.contains("<title>frame 0: free; 2 lines held, 2 changed, 1 of them broken</title>"));
    assert_eq!(cells(&svg).values().sum::<usize>(), 1 + 4096);
    assert!(svg.contains("8,192 places, a cell is 2 of them"));
    assert!(svg.contains("<title>places 0 to 1: 1 broken, 1 empty; the first broken one is place 1: name 0x10002001 "));

    let largest = Shape { frames: Shape::FRAMES_MAX, uncached: 1000, processes: 64, lines: Shape::LINES_MAX };
    if let Err(none) = Board::for_replay(largest) {
        return eprintln!("not tried, for want of memory: {none}");
    }
    let mut dump = Dump {
        shape: largest,
        pending: None,
        slots: vec![0; largest.slots()],
        words: (0..largest.frames as u64).map(|frame| (PAGE + frame / 2 * 2) * 4 + 1).collect(),
        records: (0..largest.lines as u64).flat_map(|place| [PREFIX_1 + place, place * 8 + 1]).collect(),
        cache: vec![0; largest.cache()],
        memory: vec![0; largest.memory()],
    };
    let verdict = Verdict::of(&mut dump);
    let (text, svg) = (report(&dump, &verdict), picture(&dump, &verdict));
    assert_eq!(verdict.broken, Some(Broken { rule: Rule::PageTwice, place: 1000 }));
    assert!(text.len() < 4000 && text.contains("\n  and 523,777 more\n"), "{text}");
    assert!(svg.len() < 4 << 20, "{} bytes", svg.len());
    well_formed(&svg);
    // Where pages are doubled lines are not checked.
    assert_eq!(counted(&svg, "broken"), [largest.frames - 1000, 0]);
    assert_eq!(cells(&svg).values().sum::<usize>(), 2 * 4096);
}
