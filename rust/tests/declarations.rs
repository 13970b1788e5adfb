// The three texts that declare the library's functions say the same: the Rattle source, the C header and ffi.rs. Names, order,
// types and what is only read are compared, in one common form: `name: type`, a slice as a pointer and a length. The header
// and ffi.rs put some numbers into types of their own, which the source doesn't have: there such a type is its number. The
// header alone has one of two numbers, the tag, which must be passed as these two are, and one of a matrix, which is an array in
// the others. The calls of both editions are there, and differ in the matrices alone; check and repair are there for one. So are the
// numbers with names compared, refusals and marks, and of logs kinds and reasons and of boards the rules, with their words; how an
// answer, an entry, what writing gives and a report are packed; and how many words an access, an entry of a log and a reader's
// state are.
use std::collections::BTreeMap;

/// A function's parameters and its result.
type Functions = BTreeMap<String, (Vec<String>, String)>;

/// The types of their own, each with its numbers.
type Types = BTreeMap<String, Vec<String>>;

/// Numbers by name, without C's `OALEDVA_`.
type Numbers = BTreeMap<String, u64>;

fn text(file: &str) -> String {
    let path = format!("{}/../{file}", env!("CARGO_MANIFEST_DIR"));
    std::fs::read_to_string(&path).unwrap_or_else(|error| panic!("{path}: {error}"))
}

/// What stands between the first `open` and the next `close` after it, and the rest.
fn between<'a>(text: &'a str, open: &str, close: &str) -> Option<(&'a str, &'a str)> {
    let (_, rest) = text.split_once(open)?;
    rest.split_once(close)
}

fn list(parameters: &str) -> Vec<String> {
    let words = parameters.split(',').map(|part| part.split_whitespace().collect::<Vec<_>>().join(" "));
    words.filter(|part| !part.is_empty()).collect()
}

fn of_rattle(source: &str) -> Functions {
    let mut functions = Functions::new();
    let mut rest = source;
    while let Some((name, after)) = between(rest, "pub extern \"C\" fn ", "(") {
        let (parameters, after) = after.split_once(')').unwrap();
        let (result, after) = between(after, "->", "ensures").unwrap();
        let common = list(parameters).into_iter().flat_map(|parameter| {
            let (name, kind) = parameter.split_once(": ").unwrap();
            let pointer = if kind.starts_with("&mut ") { "*mut" } else { "*const" };
            let lent = kind.trim_start_matches("&mut ").trim_start_matches('&');
            match lent.strip_prefix('[').and_then(|rest| rest.strip_suffix(']')) {
                _ if !kind.starts_with('&') => vec![parameter.clone()],
                Some(element) => vec![format!("{name}: {pointer} {element}"), format!("{name}_length: usize")],
                None => vec![format!("{name}: {pointer} {lent}")],
            }
        });
        functions.insert(name.into(), (common.collect(), result.trim().into()));
        rest = after;
    }
    functions
}

/// A type of C by its name in Rust.
fn rust_type(kind: &str) -> String {
    let title = |word: &str| word[..1].to_uppercase() + &word[1..];
    match (kind, kind.strip_prefix("oaledva_")) {
        ("size_t", _) => "usize".into(),
        (_, Some(own)) => own.split('_').map(title).collect(),
        _ => kind.replace("uint", "u").replace("_t", ""),
    }
}

fn of_c(header: &str) -> Functions {
    let (shape, _) = between(header, "#define OALEDVA_SHAPE_ARGS ", "\n").unwrap();
    let mut functions = Functions::new();
    for part in header.split(";\n").filter(|part| part.ends_with(')')) {
        // A prototype begins at its line's start; a statement doesn't, and the function that it stands in says `static`.
        let lines: Vec<&str> = part.lines().collect();
        let at_start = |line: &&str| line.starts_with(|c: char| c.is_alphabetic());
        let Some(first) = lines.iter().rposition(at_start) else { continue };
        let (head, parameters) = lines[first].split_once('(').unwrap();
        if head.contains("static ") || head == "OALEDVA_ASSERT" {
            continue;
        }
        let parameters = [&[parameters], &lines[first + 1..]].concat().join(" ");
        let declared = head.strip_prefix("OALEDVA_MUST_USE ");
        let (result, name) = declared.unwrap_or_else(|| panic!("may be ignored: {head}")).split_once(' ').unwrap();
        let parameters = parameters.trim_end_matches(')').replace("OALEDVA_SHAPE_ARGS", shape);
        let common = list(&parameters).into_iter().map(|parameter| {
            let (kind, name) = parameter.rsplit_once(' ').unwrap();
            match (name.strip_prefix('*'), kind.strip_prefix("const ")) {
                (Some(name), Some(element)) => format!("{name}: *const {}", rust_type(element)),
                (Some(name), None) => format!("{name}: *mut {}", rust_type(kind)),
                _ => format!("{name}: {}", rust_type(kind)),
            }
        });
        functions.insert(name.into(), (common.collect(), rust_type(result)));
    }
    functions
}

fn types_of_c(header: &str) -> Types {
    let numbers = |body: &str| {
        let fields = body.split(';').map(str::trim).filter(|field| !field.is_empty());
        fields
            .map(|field| field.split_once(' ').unwrap())
            .map(|(kind, declared)| {
                let (name, lengths) = declared.trim_end_matches(']').split_once('[').unwrap_or((declared, ""));
                let lengths = lengths.rsplit("][").filter(|length| !length.is_empty());
                let array = |element, length| format!("[{element}; {length}]");
                format!("{name}: {}", lengths.fold(rust_type(kind), array))
            })
            .collect()
    };
    let mut types = Types::new();
    let mut rest = header;
    while let Some((declared, after)) = between(rest, "typedef struct ", "}") {
        let (name, body) = declared.trim_start_matches("OALEDVA_MUST_USE_TYPE ").split_once(" {").unwrap();
        // These stay in the header: no function of the library takes or gives one.
        let own = ["board", "sets_board", "marked", "log_bytes", "log_reader", "log_piece"]
            .map(|own| format!("oaledva_{own}"));
        if !own.contains(&name.into()) {
            types.insert(rust_type(name), numbers(body));
        }
        rest = after;
    }
    types
}

/// Of those that are laid out as C does it: one number as that number is, more as a struct of C.
fn types_of_rust(declarations: &str) -> Types {
    let mut types = Types::new();
    let mut rest = declarations;
    while let Some((repr, after)) = between(rest, "#[repr(", ")]\npub struct ") {
        let (declared, after) = after.split_once("\n}").unwrap();
        let (name, body) = declared.split_once(" {").unwrap();
        let fields = body.lines().map(str::trim).filter(|line| !line.is_empty() && !line.starts_with("//"));
        let plain: Vec<String> =
            fields.map(|field| field.trim_start_matches("pub ").trim_end_matches(',').into()).collect();
        if repr == (if plain.len() == 1 { "transparent" } else { "C" }) {
            types.insert(name.into(), plain);
        }
        rest = after;
    }
    types
}

/// By the macros' own text: what stands before each function's own parameters, and what `read` and `write` are.
fn of_rust(declarations: &str) -> Functions {
    let blocks = declarations.matches("extern \"").count();
    assert_eq!((blocks, declarations.matches("extern \"C\" {\n").count()), (2, 2), "of C, all of them");
    let first = |name: &str| between(declarations, &format!("pub fn {name}("), "$(, $argument").unwrap().0;
    let pointer = |way: &str| between(declarations, &format!("({way} $element:ty) => {{ "), " $element }").unwrap().0;
    let mut functions = Functions::new();
    // Those of the macro, one for each edition, and those by themselves, which take no board.
    for (begins, firsts) in [("    fn ", vec![first("$name"), first("$sets")]), ("    pub fn ", vec![""])] {
        let mut rest = declarations.split_once("calls! {").unwrap().1;
        while let Some((names, after)) = between(rest, begins, "(") {
            let (parameters, after) = after.split_once(')').unwrap();
            let (result, after) = between(after, "-> ", ";").unwrap();
            let (own, buffers): (Vec<_>, Vec<_>) = list(parameters).into_iter().partition(|part| part.contains(": "));
            let names: Vec<&str> = names.split(" / ").collect();
            assert_eq!(names.len(), firsts.len(), "{names:?}");
            for (name, first) in names.into_iter().zip(&firsts) {
                let common = list(first).into_iter().map(|parameter| {
                    let lent = between(&parameter, "pointer!($", ")").and_then(|(of, _)| of.split_once(' '));
                    let Some((buffer, element)) = lent else { return parameter };
                    let way = buffers.iter().find_map(|lent| lent.strip_suffix(&format!(" {buffer}"))).unwrap();
                    format!("{}: {} {element}", parameter.split_once(": ").unwrap().0, pointer(way))
                });
                functions.insert(name.into(), (common.chain(own.clone()).collect(), result.into()));
            }
            rest = after;
        }
    }
    functions
}

/// The arguments that go in registers.
const IN_REGISTERS: usize = 6;

/// The header's functions as ffi.rs declares them: a struct of two numbers by value, the tag, is these two. That is the same
/// call where both ways are two words on the stack: the second number has 64 bits, so that it begins a word of the struct too,
/// and no register is left for the struct, because as many arguments of a word each come before it. `None` where that is not so,
/// and where a larger struct goes by value.
fn tag_in_numbers(functions: Functions, types: &Types) -> Option<Functions> {
    let mut all = Functions::new();
    for (name, (parameters, result)) in functions {
        let mut words = Vec::new();
        for parameter in parameters {
            let (_, kind) = parameter.split_once(": ")?;
            match types.get(kind).map(Vec::as_slice) {
                None | Some([_]) => words.push(parameter),
                Some([one, other]) if other.ends_with(": u64") && words.len() >= IN_REGISTERS => {
                    words.extend([one, other].map(String::clone));
                }
                _ => return None,
            }
        }
        all.insert(name, (words, result));
    }
    Some(all)
}

/// As the source declares it: types of their own are their numbers, and many of a type of one number are many numbers. And the
/// header and ffi.rs tell the two kinds of line apart by name; in the source the contract does.
fn in_numbers(functions: Functions, types: &Types) -> Functions {
    let many = |parameter: &str| {
        let (pointer, element) = parameter.rsplit_once(' ')?;
        match &types.get(element).filter(|_| pointer.contains('*'))?[..] {
            [number] => Some(format!("{pointer} {}", number.split_once(": ")?.1)),
            _ => None,
        }
    };
    let plain = |parameter: &String| {
        let (_, kind) = parameter.split_once(": ").unwrap();
        let own = types.get(kind).cloned();
        own.unwrap_or_else(|| vec![many(parameter).unwrap_or_else(|| parameter.clone())])
            .iter()
            .map(|number| number.replace("line_name:", "line:").replace("physical_line:", "line:"))
            .collect::<Vec<_>>()
    };
    let result = |kind: String| match types.get(&kind) {
        Some(numbers) => numbers.iter().map(|number| number.split_once(": ").unwrap().1).collect::<Vec<_>>().join(", "),
        None => kind,
    };
    let of = |(name, (list, kind)): (String, (Vec<String>, String))| {
        (name, (list.iter().flat_map(plain).collect(), result(kind)))
    };
    functions.into_iter().map(of).collect()
}

/// The lines of which `part` gives a name and a number, decimal, 0x or 1 <<, before a comma, a semicolon or a comment.
fn numbers(text: &str, part: fn(&str) -> Option<(&str, &str)>) -> Numbers {
    let of_line = |line: &str| {
        let (name, rest) = part(line.trim())?;
        let written = rest.split([',', ';', '/']).next()?.trim();
        let hex = written.strip_prefix("0x").map(|digits| u64::from_str_radix(digits, 16));
        let bit = written.strip_prefix("1 << ").map(|digits| digits.parse().map(|at: u32| 1 << at));
        Some((name.into(), hex.or(bit).unwrap_or_else(|| written.parse()).ok()?))
    };
    text.lines().filter_map(of_line).collect()
}

/// By `const`, in Rattle as in Rust.
fn constants(source: &str) -> Numbers {
    numbers(source, |line| {
        let (name, rest) = line.trim_start_matches("pub ").strip_prefix("const ")?.split_once(": ")?;
        Some((name, rest.split_once(" = ")?.1))
    })
}

/// By `#define`.
fn defined(header: &str) -> Numbers {
    numbers(header, |line| line.strip_prefix("#define OALEDVA_")?.split_once(' '))
}

/// The header's five enumerations: refusals, marks; of logs kinds and reasons; of boards the rules.
fn enumerated(header: &str) -> Vec<Numbers> {
    let bodies = header.split("\nenum {\n").skip(1).map(|rest| rest.split("\n};").next().unwrap());
    bodies.map(|body| numbers(body, |line| line.strip_prefix("OALEDVA_")?.split_once(" = "))).collect()
}

/// The numbers of an enum's cases, by names as C writes them.
fn cases(body: &str) -> Numbers {
    let in_c = |name: String| {
        let letters = name.chars().flat_map(|c| if c.is_uppercase() { vec!['_', c] } else { vec![c] });
        letters.skip(1).collect::<String>().to_uppercase()
    };
    numbers(body, |line| line.split_once(" = ")).into_iter().map(|(name, number)| (in_c(name), number)).collect()
}

/// The crate's, each in a file of its own.
fn numbered(declarations: &str) -> Numbers {
    cases(between(declarations, "\nnumbered! {\n", "\n}").unwrap().0)
}

/// An enum of the source.
fn enum_of(source: &str, name: &str) -> Numbers {
    cases(between(source, &format!("pub enum {name} {{\n"), "\n}").unwrap().0)
}

#[test]
fn the_source_the_header_and_the_crate_declare_the_same() {
    let mut source = Functions::new();
    for piece in ["", "_user", "_list", "_log_c", "_dump", "_sets", "_sets_user", "_sets_list"] {
        source.extend(of_rattle(&text(&format!("crates/oaledva{piece}/src/lib.rt"))));
    }
    assert_eq!(source.len(), 22 + 15);
    let (header, crates) = (text("include/oaledva.h"), text("rust/src/ffi.rs"));
    let types = types_of_c(&header);
    assert_eq!(
        types.keys().map(String::as_str).collect::<Vec<_>>().join(" "),
        "Access Answer Entry Kind LogEntry LogWritten Looked Pending Permission Place Report Uses"
    );
    assert_eq!(types["Uses"], ["after: [[u8; 4]; 4]"]);
    assert!(crates.contains("\npub type Uses = [[u8; 4]; 4];\n"));
    let mut shared = types.clone();
    shared.retain(|name, _| !["Pending", "Uses"].contains(&name.as_str()));
    assert_eq!(shared, types_of_rust(&crates));
    for kind in ["Answer", "Entry", "LogWritten", "Looked", "Place", "Report"] {
        assert!(
            crates.contains(&format!("#[must_use]\n#[repr(transparent)]\npub struct {kind} {{")),
            "may be ignored: {kind}"
        );
    }
    let words = tag_in_numbers(of_c(&header), &types).expect("the tag is two words on the stack");
    assert_eq!(words, of_rust(&crates));
    assert_eq!(in_numbers(words, &types), source);
}

/// What is there for boards in which a line has one place, and for no others.
const ONE_PLACE: [&str; 2] = ["check", "repair"];

/// Of each call on a board the second edition has one that takes the matrices after memory, and nothing else that is other. They
/// are only read but by accesses, lists of them and load-and-map. Check and repair it has not.
#[test]
fn the_editions_differ_in_the_matrices_alone() {
    let mut functions = of_c(&text("include/oaledva.h"));
    for name in ONE_PLACE {
        assert!(functions.remove(&format!("oaledva_{name}")).is_some(), "{name}");
    }
    let (sets, others): (Vec<_>, Vec<_>) =
        functions.into_iter().partition(|(name, _)| name.starts_with("oaledva_sets_"));
    let on_boards = others.into_iter().filter(|(_, (parameters, _))| parameters[0] == "frames: usize");
    let expected: Functions = on_boards
        .map(|(name, (mut parameters, result))| {
            let used = name.contains("access") || name == "oaledva_load_and_map";
            let memory = parameters.iter().position(|parameter| parameter == "memory_length: usize").unwrap();
            let uses = format!("uses: *{} Uses", if used { "mut" } else { "const" });
            parameters.splice(memory + 1..memory + 1, [uses, "uses_length: usize".into()]);
            (name.replacen("oaledva_", "oaledva_sets_", 1), (parameters, result))
        })
        .collect();
    assert_eq!((expected.len(), sets.into_iter().collect::<Functions>()), (15, expected));
}

/// The header's functions over a board, by their heads: name, parameters and result.
fn over_boards(header: &str, board: &str) -> Vec<String> {
    let heads = header.split("OALEDVA_MUST_USE static inline ").skip(1).map(|rest| rest.split(" {").next().unwrap());
    let words = heads.map(|head| head.split_whitespace().collect::<Vec<_>>().join(" ").replace("( ", "("));
    let name = |head: &String| head.split('(').next().unwrap().rsplit([' ', '*']).next().unwrap().to_string();
    words.filter(|head| name(head).starts_with(&format!("{board}_"))).collect()
}

#[test]
fn boards_of_both_editions_have_the_same_functions() {
    let header = text("include/oaledva.h");
    let mut one_place = over_boards(&header, "oaledva_board");
    let all = one_place.len();
    one_place.retain(|head| ONE_PLACE.iter().all(|name| !head.contains(&format!(" oaledva_board_{name}("))));
    assert_eq!((one_place.len(), all), (21, 21 + ONE_PLACE.len()));
    let in_sets: Vec<_> = one_place.iter().map(|head| head.replace("oaledva_board", "oaledva_sets_board")).collect();
    assert_eq!(over_boards(&header, "oaledva_sets_board"), in_sets);
}

/// A slice of accesses is lent as one of words: each is so many, and none of them of another width.
#[test]
fn an_access_is_so_many_words() {
    let (header, crates) = (text("include/oaledva.h"), text("rust/src/ffi.rs"));
    let types = types_of_c(&header);
    let words = types["Access"].iter().map(|field| match field.split_once(": ").unwrap().1 {
        "Kind" => types["Kind"].iter().map(|number| number.split_once(": ").unwrap().1).collect(),
        kind => vec![kind],
    });
    let words: Vec<&str> = words.flatten().collect();
    assert_eq!(words, ["u32"; 5]);
    assert_eq!(defined(&header)["ACCESS_WORDS"], words.len() as u64);
    assert_eq!(constants(&crates)["ACCESS_WORDS"], words.len() as u64);
}

/// So is an entry of a log, of numbers. And a reader begins with the same words in both, which are as many as its state has.
#[test]
fn an_entry_of_a_log_and_a_reader_are_so_many_words() {
    let (header, crates) = (text("include/oaledva.h"), text("rust/src/ffi.rs"));
    assert_eq!(types_of_c(&header)["LogEntry"], ["kind: u64", "fields: [u64; 5]"]);
    let (said, given) = (defined(&header), constants(&crates));
    assert_eq!(said["LOG_ENTRY_WORDS"], 6);
    for name in ["LOG_ENTRY_WORDS", "LOG_ENTRY_BYTES", "LOG_STATE_WORDS"] {
        assert_eq!(said[name], given[name], "{name}");
    }
    let begins = list(between(&header, "#define OALEDVA_LOG_READER {{", "}}").unwrap().0);
    assert_eq!(begins.len() as u64, said["LOG_STATE_WORDS"]);
    let (fresh, _) = between(&crates, "LOG_STATE_FRESH: [u64; LOG_STATE_WORDS] = [", "]").unwrap();
    assert_eq!(begins, list(fresh));
    assert!(header.contains("uint64_t state[OALEDVA_LOG_STATE_WORDS];"));
    assert!(
        header.contains("#define OALEDVA_LOG_NOTHING UINT64_MAX\n") && crates.contains("LOG_NOTHING: u64 = u64::MAX;")
    );
}

/// The marks have the same names in all three, but for 0, which the source calls no mark; the refusals in the header and the crate, and in
/// the source the same numbers.
#[test]
fn numbers_with_names_are_the_same() {
    let [refusals, marks, ..] = &enumerated(&text("include/oaledva.h"))[..] else { panic!("not two enumerations") };
    assert_eq!((refusals.len(), marks.len()), (13, 5));
    assert_eq!(refusals, &numbered(&text("rust/src/refusal.rs")));
    assert_eq!(marks, &numbered(&text("rust/src/mark.rs")));
    let source = text("crates/board/src/lib.rt");
    let mut named = marks.clone();
    assert_eq!(named.remove("NO_ACCESS"), constants(&source).get("NO_MARK").copied());
    assert_eq!(named, enum_of(&source, "Mark"));
    let by_number = |numbers: &Numbers| numbers.values().copied().collect::<std::collections::BTreeSet<_>>();
    assert_eq!(by_number(refusals), by_number(&enum_of(&source, "Refusal")));
}

/// Of logs: the kinds, with what their fields are called, and the reasons, with their words. In the source the reasons have
/// shorter names.
#[test]
fn kinds_and_reasons_are_the_same() {
    let header = text("include/oaledva.h");
    let [_, _, kinds, reasons, _] = &enumerated(&header)[..] else { panic!("not five enumerations") };
    let in_logs = |numbers: Numbers| -> Numbers {
        numbers.into_iter().map(|(name, number)| (format!("LOG_{name}"), number)).collect()
    };
    let mut calls = kinds.clone();
    assert_eq!(calls.remove("LOG_HEADER"), Some(0));
    assert_eq!((calls.len(), reasons.len()), (12, 6));
    assert_eq!(kinds, &in_logs(enum_of(&text("crates/log_entries/src/lib.rt"), "Kind")));
    assert_eq!(calls, in_logs(numbered(&text("rust/src/log/kind.rs"))));
    assert_eq!(reasons, &in_logs(numbered(&text("rust/src/log/reason.rs"))));
    for (name, number) in &calls {
        let fields = oaledva::log::Kind::of(*number).unwrap().fields();
        let words = if fields.is_empty() { "none".into() } else { fields.join(", ") };
        let line = header.lines().find(|line| line.trim().starts_with(&format!("OALEDVA_{name} = "))).unwrap();
        assert!(line.ends_with(&format!("/* {words} */")), "{line}");
    }
    let source = enum_of(&text("crates/log_numbers/src/lib.rt"), "Reason");
    for (name, number) in reasons {
        let reason = oaledva::log::Reason::of(*number as u32).unwrap();
        let line = format!("    case OALEDVA_{name}: return \"{}\";\n", reason.words());
        assert!(header.contains(&line), "{line}");
        let short = match name.as_str() {
            "LOG_TENTH_BYTE" => "TENTH",
            "LOG_UNKNOWN_KIND" => "KIND",
            "LOG_TOO_LARGE" => "FIELD",
            _ => &name["LOG_".len()..],
        };
        assert_eq!(source.get(short), Some(number), "{short}");
    }
}

/// The rules, with their words. In the source they have the names of what is kept, and here of how it is broken.
#[test]
fn rules_are_the_same() {
    let header = text("include/oaledva.h");
    let [.., rules] = &enumerated(&header)[..] else { panic!("no enumeration") };
    let mut rules = rules.clone();
    assert_eq!((rules.remove("RULE_NONE"), rules.len()), (Some(0), oaledva::Rule::ALL.len()));
    let own = numbered(&text("rust/src/rule.rs"));
    assert_eq!(rules, own.into_iter().map(|(name, number)| (format!("RULE_{name}"), number)).collect());
    let source = enum_of(&text("crates/dumps/src/lib.rt"), "Rule");
    for (name, number) in &rules {
        let rule = oaledva::Rule::of(*number as u32).unwrap();
        let line = format!("    case OALEDVA_{name}: return \"{}\";\n", rule.words());
        assert!(header.contains(&line), "{line}");
        let kept = match name.as_str() {
            "RULE_LENGTHS" => "LENGTHS",
            "RULE_PAGE_TWICE" => "PAGE_ONCE",
            "RULE_LINE_TWICE" => "LINE_ONCE",
            "RULE_ASTRAY" => "AT_HOME",
            "RULE_STALE" => "EQUALS_MEMORY",
            other => panic!("{other}"),
        };
        assert_eq!(source.get(kept), Some(number), "{kept}");
    }
}

#[test]
fn answers_entries_and_reports_are_packed_the_same() {
    let (header, crates) = (defined(&text("include/oaledva.h")), text("rust/src/ffi.rs"));
    let of = |kind: &str| constants(between(&crates, &format!("\nimpl {kind} {{\n"), "\n}").unwrap().0);
    let (answer, entry, written, report) = (of("Answer"), of("Entry"), of("LogWritten"), of("Report"));
    assert_eq!((answer.len(), entry.len(), written.len(), report.len()), (3, 1, 1, 5));
    for (name, number) in &report {
        assert_eq!(header.get(&format!("REPORT_{name}")), Some(number), "{name}");
    }
    assert_eq!(header.keys().filter(|name| name.starts_with("REPORT_")).count(), report.len());
    let units = constants(&text("crates/oaledva_dump/src/lib.rt"));
    for part in ["NUMBER", "RULE", "DROPPED"] {
        assert_eq!(units[&format!("{part}_UNIT")], 1 << report[&format!("{part}_AT")], "{part}");
    }
    assert_eq!(header["LOG_REASON_AT"], written["REASON_AT"]);
    for (name, number) in &answer {
        assert_eq!(header.get(name), Some(number), "{name}");
    }
    assert_eq!(header["ENTRY_NUMBER_AT"], entry["NUMBER_AT"]);
    let (crossing, address) = (text("crates/crossing/src/lib.rt"), text("crates/address/src/lib.rt"));
    for (unit, at) in [("NUMBER_UNIT", "NUMBER_AT"), ("MARK_UNIT", "MARK_AT")] {
        assert_eq!(constants(&crossing)[unit], 1 << header[at], "{unit}");
    }
    assert_eq!(constants(&address)["GLOBAL_END"], 1 << header["ENTRY_NUMBER_AT"]);
}

/// So that the comparison can fail: each text, changed in one place, is another.
#[test]
fn a_changed_declaration_shows() {
    let (source, header) = (text("crates/oaledva/src/lib.rt"), text("include/oaledva.h"));
    let (crates, marks) = (text("rust/src/ffi.rs"), text("rust/src/mark.rs"));
    let board = text("crates/board/src/lib.rt");
    let changed = |text: &str, old: &str, new: &str| {
        assert!(text.contains(old), "{old}");
        text.replacen(old, new, 1)
    };
    assert_ne!(of_rattle(&source), of_rattle(&changed(&source, "segment: u64", "segment: u32")));
    assert_ne!(of_rattle(&source), of_rattle(&changed(&source, "cache: &mut [u8]", "cache: &[u8]")));
    assert_ne!(of_rattle(&source), of_rattle(&changed(&source, "    new_page: u64,\n", "")));
    let lists = text("crates/oaledva_list/src/lib.rt");
    assert_ne!(of_rattle(&lists), of_rattle(&changed(&lists, "answers: &mut [u64]", "answers: &[u64]")));
    assert_ne!(of_rattle(&lists), of_rattle(&changed(&lists, "accesses: &[u32]", "accesses: &[u64]")));
    let sets = text("crates/oaledva_sets/src/lib.rt");
    assert_ne!(of_rattle(&sets), of_rattle(&changed(&sets, "uses: &mut [[[u8; 4]; 4]]", "uses: &[[[u8; 4]; 4]]")));
    assert_ne!(of_rattle(&sets), of_rattle(&changed(&sets, "uses: &[[[u8; 4]; 4]]", "uses: &[[[u8; 4]; 8]]")));
    assert_ne!(of_rattle(&sets), of_rattle(&changed(&sets, "uses: &[[[u8; 4]; 4]]", "uses: &[[u8; 4]; 4]")));
    let dumps = text("crates/oaledva_dump/src/lib.rt");
    assert_ne!(of_rattle(&dumps), of_rattle(&changed(&dumps, "dropped: &mut [u8]", "dropped: &[u8]")));
    assert_ne!(of_rattle(&dumps), of_rattle(&changed(&dumps, "records: &mut [u64]", "records: &[u64]")));
    assert_ne!(of_rattle(&dumps), of_rattle(&changed(&dumps, "    links: &mut [u64],\n", "")));
    assert_ne!(constants(&dumps), constants(&changed(&dumps, "RULE_UNIT: u64 = 1 << 48", "RULE_UNIT: u64 = 1 << 40")));
    let of_c_changed = |old, new| assert_ne!(of_c(&header), of_c(&changed(&header, old, new)));
    of_c_changed("    uint64_t *keys, size_t keys_length,\n", "");
    of_c_changed("    uint8_t *dropped, size_t dropped_length);", "    uint64_t *dropped, size_t dropped_length);");
    of_c_changed("oaledva_report oaledva_check(", "oaledva_answer oaledva_check(");
    of_c_changed("const oaledva_uses *uses", "oaledva_uses *uses");
    of_c_changed("oaledva_uses *uses, size_t uses_length,", "");
    of_c_changed("oaledva_uses *uses", "uint8_t *uses");
    let in_sets = |header: &str| over_boards(header, "oaledva_sets_board");
    let old = "oaledva_sets_board *b, uint64_t page, size_t frame";
    assert_ne!(in_sets(&header), in_sets(&changed(&header, old, "oaledva_sets_board *b, size_t frame, uint64_t page")));
    of_c_changed("    size_t process, size_t slot, ", "    size_t slot, size_t process, ");
    of_c_changed("ARGS size_t frames, size_t uncached", "ARGS size_t uncached, size_t frames");
    of_c_changed("const uint64_t *words", "uint64_t *words");
    of_c_changed("uint64_t page", "uint32_t page");
    of_c_changed("uint64_t page, uint64_t new_page", "uint64_t new_page, uint64_t page");
    of_c_changed("size_t process, oaledva_kind kind", "size_t process, oaledva_permission kind");
    of_c_changed("oaledva_place oaledva_look(", "oaledva_answer oaledva_look(");
    of_c_changed("entry_of_page(uint64_t page)", "entry_of_page(uint32_t page)");
    of_c_changed("oaledva_entry oaledva_entry_of_page", "oaledva_place oaledva_entry_of_page");
    of_c_changed("    oaledva_answer *answers", "    const oaledva_answer *answers");
    of_c_changed("    uint64_t *state, size_t state_length", "    const uint64_t *state, size_t state_length");
    of_c_changed("    const uint8_t *piece", "    const uint64_t *piece");
    of_c_changed("size_t state_length, uint32_t ended", "uint32_t ended, size_t state_length");
    of_c_changed("oaledva_log_written oaledva_log_write(", "uint64_t oaledva_log_write(");
    let narrow = changed(&header, "    oaledva_answer *answers", "    uint32_t *answers");
    let types = types_of_c(&header);
    assert_ne!(in_numbers(of_c(&header), &types), in_numbers(of_c(&narrow), &types));
    assert_ne!(types, types_of_c(&changed(&header, "    uint32_t width;", "    uint64_t width;")));
    assert_ne!(types, types_of_c(&changed(&header, "    uint64_t fields[5];", "    uint64_t fields[6];")));
    assert_ne!(types, types_of_c(&changed(&header, "    uint64_t kind;\n", "")));
    assert_ne!(types, types_of_c(&changed(&header, "    uint8_t after[4][4];", "    uint8_t after[4][8];")));
    assert_ne!(types, types_of_c(&changed(&header, "    uint8_t after[4][4];", "    uint8_t after[16];")));
    assert_ne!(defined(&header), defined(&changed(&header, "OALEDVA_ACCESS_WORDS 5", "OALEDVA_ACCESS_WORDS 4")));
    assert_ne!(types_of_c(&header), types_of_c(&changed(&header, "    uint32_t set;", "    uint64_t set;")));
    let tag_changed = |old, new| {
        let changed = changed(&header, old, new);
        tag_in_numbers(of_c(&changed), &types_of_c(&changed))
    };
    let tag = tag_in_numbers(of_c(&header), &types);
    assert_ne!(tag, tag_changed("    uint32_t set;", "    uint64_t set;"));
    assert_ne!(tag, tag_changed("    oaledva_pending tag,\n", ""));
    assert_eq!(tag_changed("    uint64_t name;", "    uint32_t name;"), None); // both in one word
    assert_eq!(tag_changed("    uint64_t name;", "    uint64_t name;\n    uint64_t more;"), None);
    assert_eq!(tag_changed("ARGS size_t frames", "ARGS oaledva_pending tag, size_t frames"), None); // in registers
    assert_eq!(tag_changed("    oaledva_pending tag,\n", "    oaledva_access tag,\n"), None);
    assert_ne!(types_of_rust(&crates), types_of_rust(&changed(&crates, "packed: u64", "packed: u32")));
    assert_ne!(types_of_rust(&crates), types_of_rust(&changed(&crates, "#[repr(transparent)]\npub", "pub")));
    assert_ne!(types_of_rust(&crates), types_of_rust(&changed(&crates, "#[repr(C)]", "#[repr(align(16))]")));
    assert_ne!(of_rust(&crates), of_rust(&changed(&crates, "page: u64", "page: u32")));
    assert_ne!(of_rust(&crates), of_rust(&changed(&crates, ", new_page: u64", "")));
    assert_ne!(of_rust(&crates), of_rust(&changed(&crates, "set: u32, name: u64", "name: u64, set: u32")));
    assert_ne!(of_rust(&crates), of_rust(&changed(&crates, "write memory", "read memory")));
    assert_ne!(of_rust(&crates), of_rust(&changed(&crates, "write uses", "read uses")));
    assert_ne!(of_rust(&crates), of_rust(&changed(&crates, "pointer!($uses Uses)", "pointer!($uses u8)")));
    assert_ne!(of_rust(&crates), of_rust(&changed(&crates, "/ oaledva_sets_unmap(", "/ oaledva_sets_map(")));
    assert_ne!(of_rust(&crates), of_rust(&changed(&crates, "{ *mut $element }", "{ *const $element }")));
    assert_ne!(of_rust(&crates), of_rust(&changed(&crates, "frames: usize", "uncached: usize")));
    assert_ne!(of_rust(&crates), of_rust(&changed(&crates, "-> Answer", "-> u64")));
    assert_ne!(of_rust(&crates), of_rust(&changed(&crates, "entry_of_page(page: u64)", "entry_of_page(page: u32)")));
    assert_ne!(of_rust(&crates), of_rust(&changed(&crates, "-> Entry", "-> Place")));
    assert_ne!(enumerated(&header), enumerated(&changed(&header, "OALEDVA_HIT = 1,", "OALEDVA_HIT = 2,")));
    assert_ne!(enumerated(&header), enumerated(&changed(&header, "OALEDVA_UNCACHED = 4", "OALEDVA_PAST = 4")));
    assert_ne!(enumerated(&header), enumerated(&changed(&header, "    OALEDVA_TAG = 3,", "    OALEDVA_TAG = 4,")));
    assert_ne!(defined(&header), defined(&changed(&header, "OALEDVA_NUMBER_AT 56", "OALEDVA_NUMBER_AT 55")));
    assert_ne!(defined(&header), defined(&changed(&header, "OALEDVA_MARK_MASK 0xff", "OALEDVA_MARK_MASK 0x7f")));
    assert_ne!(enumerated(&header), enumerated(&changed(&header, "OALEDVA_LOG_MAP = 5,", "OALEDVA_LOG_MAP = 6,")));
    assert_ne!(enumerated(&header), enumerated(&changed(&header, "OALEDVA_LOG_CUT = 4,", "OALEDVA_LOG_SHORT = 4,")));
    assert_ne!(enumerated(&header), enumerated(&changed(&header, "_RULE_STALE = 5", "_RULE_STALE = 6")));
    assert_ne!(defined(&header), defined(&changed(&header, "_REPORT_RULE_AT 48", "_REPORT_RULE_AT 40")));
    let rules = text("rust/src/rule.rs");
    assert_ne!(numbered(&rules), numbered(&changed(&rules, "LineTwice = 3", "LineTwice = 2")));
    assert_ne!(constants(&crates), constants(&changed(&crates, "DROPPED_AT: u32 = 24", "DROPPED_AT: u32 = 32")));
    assert_ne!(of_rust(&crates), of_rust(&changed(&crates, "dropped: *mut u8", "dropped: *const u8")));
    assert_ne!(of_rust(&crates), of_rust(&changed(&crates, "keys: *mut u64", "keys: *mut u32")));
    assert_ne!(of_rust(&crates), of_rust(&changed(&crates, "-> Report", "-> Answer")));
    assert_ne!(numbered(&marks), numbered(&changed(&marks, "Refilled = 2", "Refilled = 3")));
    assert_ne!(numbered(&marks), numbered(&changed(&marks, "    WroteBack =", "    Wroteback =")));
    assert_ne!(of_rust(&crates), of_rust(&changed(&crates, "answers: *mut Answer", "answers: *mut u32")));
    assert_ne!(of_rust(&crates), of_rust(&changed(&crates, "state: *mut u64", "state: *const u64")));
    assert_ne!(of_rust(&crates), of_rust(&changed(&crates, "ended: u32", "ended: u64")));
    assert_ne!(types_of_rust(&crates), types_of_rust(&changed(&crates, "fields: [u64; 5]", "fields: [u64; 4]")));
    assert_ne!(constants(&crates), constants(&changed(&crates, "MARK_AT: u32 = 32", "MARK_AT: u32 = 33")));
    assert_ne!(constants(&crates), constants(&changed(&crates, "ACCESS_WORDS: usize = 5", "ACCESS_WORDS: usize = 4")));
    assert_ne!(enum_of(&board, "Mark"), enum_of(&changed(&board, "WroteBack = 3", "WroteBack = 2"), "Mark"));
    assert_ne!(enum_of(&board, "Refusal"), enum_of(&changed(&board, "Outside = 12", "Outside = 14"), "Refusal"));
}
