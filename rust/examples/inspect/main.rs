// Tells what stands in a dumped board, whether it is sound, and if not what is wrong; repairs it; draws it: `inspect --help`.
mod facts;
mod picture;
mod words;

pub use facts::Verdict;
use oaledva::dump::{Dump, ReadError};
pub use picture::picture;
use std::ffi::{OsStr, OsString};
use std::fs::{self, File};
use std::io::{self, Write};
use std::os::unix::fs::MetadataExt;
use std::process::ExitCode;
pub use words::report;

pub const USAGE: &str = "\
usage: inspect DUMP [--repair OUT] [--svg OUT]
Tells what a dumped board holds, whether it is sound, and if not which rule is broken,
what stands there, and what a repair would drop. docs/DUMPS.md says what a dump is.
  DUMP          the dump's file, or - for standard input
  --repair OUT  writes the repaired dump to OUT: the same board without the lines that
                break a rule. Where rule 1 or 2 is broken, nothing is written
  --svg OUT     writes a picture of the board to OUT, before the repair
exit code: 0 the dump is sound, or OUT is; 1 a rule is broken, and nothing is repaired;
2 the arguments or the dump's file are wrong, or OUT can't be written";

/// What the program ends with.
pub const SOUND: u8 = 0;
pub const BROKEN: u8 = 1;
pub const WRONG: u8 = 2;

fn main() -> ExitCode {
    let (mut out, mut err) = (io::stdout().lock(), io::stderr().lock());
    match options(std::env::args_os().skip(1)) {
        Ok(None) => {
            let _ = writeln!(out, "{USAGE}");
            ExitCode::SUCCESS
        }
        Ok(Some(options)) => ExitCode::from(inspect(&options, &mut out, &mut err)),
        Err(problem) => {
            let _ = writeln!(err, "inspect: {problem}\n{USAGE}");
            ExitCode::from(WRONG)
        }
    }
}

#[derive(Debug, Default, PartialEq, Eq)]
pub struct Options {
    pub dump: OsString,
    pub repair: Option<OsString>,
    pub svg: Option<OsString>,
}

/// Nothing where help is asked for.
pub fn options(mut arguments: impl Iterator<Item = OsString>) -> Result<Option<Options>, String> {
    let (mut options, mut dumps) = (Options::default(), Vec::new());
    while let Some(argument) = arguments.next() {
        let wanted = match argument.to_str() {
            Some("--help" | "-h") => return Ok(None),
            Some("--repair") => &mut options.repair,
            Some("--svg") => &mut options.svg,
            Some(option) if option.len() > 1 && option.starts_with('-') => {
                return Err(format!("unknown option '{option}'"));
            }
            _ => {
                dumps.push(argument);
                continue;
            }
        };
        let option = argument.to_string_lossy();
        let file = arguments.next().ok_or_else(|| format!("{option} takes a file"))?;
        if wanted.replace(file).is_some() {
            return Err(format!("{option} is there twice"));
        }
    }
    options.dump = dumps.pop().ok_or("no dump")?;
    match dumps.is_empty() {
        true => Ok(Some(options)),
        false => Err("one dump at a time".into()),
    }
}

/// Does it all, and gives the exit code. What can't be done is told in `err`, a line each.
pub fn inspect(options: &Options, out: &mut dyn Write, err: &mut dyn Write) -> u8 {
    match inspected(options, out) {
        Ok(code) => code,
        Err((code, problem)) => {
            // There is nobody else to tell.
            let _ = writeln!(err, "inspect: {problem}");
            code
        }
    }
}

fn inspected(options: &Options, out: &mut dyn Write) -> Result<u8, (u8, String)> {
    let wrong = |problem: String| (WRONG, problem);
    let name = name(&options.dump);
    let files = [Some(&options.dump), options.repair.as_ref(), options.svg.as_ref()];
    for (index, file) in files.iter().enumerate().skip(1) {
        if let Some(same) = file.and_then(|file| files[..index].iter().flatten().find(|other| same(other, file))) {
            return Err(wrong(format!("{} would be written over", same.to_string_lossy())));
        }
    }
    let mut dump = read(&options.dump).map_err(|error| match error {
        ReadError::Io(error) => wrong(format!("cannot read {name}: {error}")),
        ReadError::Refused(refused) => wrong(format!("{name}: {refused}")),
    })?;
    let verdict = Verdict::of(&mut dump);
    match out.write_all(report(&dump, &verdict).as_bytes()).and_then(|()| out.flush()) {
        // Whoever reads it has enough.
        Err(error) if error.kind() != io::ErrorKind::BrokenPipe => return Err(wrong(format!("cannot write: {error}"))),
        _ => {}
    }
    if let Some(file) = &options.svg {
        let svg = picture(&dump, &verdict);
        save(file, |file| file.write_all(svg.as_bytes())).map_err(wrong)?;
    }
    let Some(file) = &options.repair else { return Ok(if verdict.broken.is_none() { SOUND } else { BROKEN }) };
    let Verdict { repaired: Some(records), .. } = verdict else {
        return Err((BROKEN, format!("{name} can't be repaired: nothing is written to {}", file.to_string_lossy())));
    };
    dump.records = records;
    save(file, |file| dump.write(file)).map_err(wrong)?;
    let _ = writeln!(out, "The repaired dump is in {}.", file.to_string_lossy());
    Ok(SOUND)
}

fn name(file: &OsStr) -> String {
    if file == "-" {
        "standard input".into()
    } else {
        file.to_string_lossy().into()
    }
}

fn read(file: &OsStr) -> Result<Dump, ReadError> {
    if file == "-" {
        Dump::read(io::stdin().lock())
    } else {
        Dump::read(File::open(file)?)
    }
}

/// Whether two names are of the same file. (What is no plain file, a terminal say, may be written to twice.)
fn same(one: &OsStr, other: &OsStr) -> bool {
    let file = |name| fs::metadata(name).ok().filter(|about| about.is_file()).map(|about| (about.dev(), about.ino()));
    match (file(one), file(other)) {
        (Some(one), Some(other)) => one == other,
        (None, None) => one == other && fs::metadata(one).is_err(),
        _ => false,
    }
}

fn save(file: &OsStr, write: impl FnOnce(&mut File) -> io::Result<()>) -> Result<(), String> {
    let saved = File::create(file).and_then(|mut file| write(&mut file));
    saved.map_err(|error| format!("cannot write {}: {error}", file.to_string_lossy()))
}
