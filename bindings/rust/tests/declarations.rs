//! The C names are declared in three places, which no compiler holds together: the C header, the block of Rust, and the library's
//! source in Rattle. They have the same functions in the same order, with the same parameters and results.

const HEADER: &str = include_str!("../../c/weighpick.h");
const BLOCK: &str = include_str!("../src/c_names.rs");
const SOURCE: &str = include_str!("../../../crates/weighpick_c/src/lib.rt");

/// The page that has a table of the functions.
const PAGE: &str = include_str!("../../../docs/FORMAT.md");

/// C's types, with Rust's for them.
const C_TYPES: [(&str, &str); 7] = [
    ("const uint8_t *", "*const u8"),
    ("uint8_t *", "*mut u8"),
    ("uint64_t *", "*mut u64"),
    ("size_t", "usize"),
    ("uint8_t", "u8"),
    ("uint32_t", "u32"),
    ("uint64_t", "u64"),
];

/// Rattle's types, with Rust's for what is handed over. A slice is a pointer and a length.
const RATTLE_TYPES: [(&str, &[&str]); 6] = [
    ("&[u8]", &["*const u8", "usize"]),
    ("&mut [u8]", &["*mut u8", "usize"]),
    ("&mut u64", &["*mut u64"]),
    ("u8", &["u8"]),
    ("u32", &["u32"]),
    ("u64", &["u64"]),
];

/// What the name of a slice's length ends in.
const LENGTH: &str = "_len";

/// A name or a type in Rust.
type Word = String;

/// A function as it is declared, with the types in Rust's words.
#[derive(Debug, PartialEq)]
struct Function {
    name: Word,
    parameters: Vec<(Word, Word)>,
    result: Word,
}

/// A text without comments, its words a space apart.
fn plain(text: &str, open: &str, close: &str) -> String {
    let mut parts = text.split(open);
    let before = parts.next().unwrap_or_default().to_string();
    let behind = parts.map(|part| part.split_once(close).map_or("", |(_, rest)| rest));
    let text = behind.fold(before, |text, part| text + " " + part);
    text.split_whitespace().collect::<Vec<_>>().join(" ")
}

/// What stands for a key in a list.
fn find<T: Copy>(list: &[(&str, T)], key: &str) -> T {
    let found = list.iter().find(|(listed, _)| *listed == key);
    found.unwrap_or_else(|| panic!("`{key}` is not listed")).1
}

/// A text up to a sign, and behind it.
fn parted<'a>(text: &'a str, sign: &str) -> (&'a str, &'a str) {
    let (before, behind) = text
        .split_once(sign)
        .unwrap_or_else(|| panic!("no `{sign}` in `{text}`"));
    (before.trim(), behind.trim())
}

/// Parameters with commas between them, or none; there may be one behind the last.
fn listed(parameters: &str) -> impl Iterator<Item = &str> {
    let parameters = parameters.trim_end_matches(',');
    let parameters = (!parameters.is_empty()).then(|| parameters.split(','));
    parameters.into_iter().flatten().map(str::trim)
}

/// The prototypes of a header: what has a bracket, where comments, the lines of the preprocessor and enums have none.
fn in_header(header: &str) -> Vec<Function> {
    let lines = header.lines().filter(|line| !line.starts_with('#'));
    let text = plain(&lines.collect::<Vec<_>>().join("\n"), "/*", "*/");
    let prototypes = text.split(';').filter(|part| part.contains('('));
    prototypes.map(|part| prototype(part.trim())).collect()
}

/// A prototype of C, as `uint32_t f(const uint8_t *a, size_t a_len)` or `uint32_t f(void)`.
fn prototype(text: &str) -> Function {
    let (head, rest) = parted(text, "(");
    let (result, name) = c_variable(head);
    let (parameters, rest) = parted(rest, ")");
    assert_eq!(rest, "", "behind {name}");
    // Empty brackets would say nothing of the parameters.
    assert_ne!(parameters, "", "{name} without `void`");
    let parameters = if parameters == "void" { "" } else { parameters };
    let parameters = listed(parameters).map(|text| {
        let (of, name) = c_variable(text);
        (name, of)
    });
    Function {
        name,
        parameters: parameters.collect(),
        result,
    }
}

/// The type, in Rust, and the name of a variable of C, or of a function.
fn c_variable(text: &str) -> (Word, Word) {
    let end = text.rfind([' ', '*']).map_or(0, |at| at + 1);
    let (of, name) = text.split_at(end);
    (find(&C_TYPES, of.trim()).to_string(), name.to_string())
}

/// The functions of the block of Rust. There is nothing else in its file.
fn in_block(file: &str) -> Vec<Function> {
    let text = plain(&format!("{file}\n"), "//", "\n");
    let block = text.strip_prefix("unsafe extern \"C\" {");
    let block = block.and_then(|rest| rest.strip_suffix('}'));
    let functions = block.expect("a block, and nothing else").split(';');
    let functions = functions.map(str::trim).filter(|text| !text.is_empty());
    functions.map(|text| function(text, "pub fn ")).collect()
}

/// A function of Rust, with the words before its name.
fn function(text: &str, before: &str) -> Function {
    let rest = text.strip_prefix(before);
    let rest = rest.unwrap_or_else(|| panic!("no `{before}` before `{text}`"));
    let (name, rest) = parted(rest, "(");
    let (parameters, rest) = parted(rest, ")");
    let parameters = listed(parameters).map(|text| {
        let (name, of) = parted(text, ":");
        (name.to_string(), of.to_string())
    });
    let (between, result) = parted(rest, "->");
    assert_eq!(between, "", "behind the parameters of {name}");
    Function {
        name: name.to_string(),
        parameters: parameters.collect(),
        result: result.to_string(),
    }
}

/// The functions of the source that have a C name: each is marked so that it keeps it.
fn in_source(source: &str) -> Vec<Function> {
    let text = plain(source, "//", "\n");
    let named = text.split("#[unsafe(no_mangle)]").skip(1).map(str::trim);
    let named = named.map(|text| {
        // Behind the result come its contract and its body.
        let declared = parted(text, " ensures ").0;
        handed_over(function(declared, "pub extern \"C\" fn "))
    });
    let named: Vec<Function> = named.collect();
    assert_eq!(text.matches("extern \"C\"").count(), named.len());
    named
}

/// A function of the source as a caller in C has it.
fn handed_over(function: Function) -> Function {
    let parameters = function.parameters.iter().flat_map(|(name, of)| {
        let names = [name.clone(), format!("{name}{LENGTH}")];
        let types = find(&RATTLE_TYPES, of).iter().map(|of| of.to_string());
        names.into_iter().zip(types)
    });
    Function {
        parameters: parameters.collect(),
        ..function
    }
}

/// Two lists have the same functions in the same order. The first that are not the same are shown.
fn same(one: &[Function], other: &[Function]) {
    for (one, other) in one.iter().zip(other) {
        assert_eq!(one, other);
    }
    assert_eq!(one.len(), other.len());
}

#[test]
fn header_and_block() {
    same(&in_header(HEADER), &in_block(BLOCK));
}

#[test]
fn header_and_source() {
    same(&in_header(HEADER), &in_source(SOURCE));
}

/// What is read, word for word: the first two names, a function without parameters, and one with a parameter of every type.
#[test]
fn read_as_it_stands() {
    let header = in_header(HEADER);
    let names: Vec<&str> = header.iter().map(|f| f.name.as_str()).collect();
    assert!(names.starts_with(&["weighpick_version", "weighpick_project"]));
    assert!(names.iter().all(|name| name.starts_with("weighpick_")));
    assert_eq!(header[0].parameters, []);
    assert_eq!(header[0].result, "u32");
    let transform = header.iter().find(|f| f.name == "weighpick_transform");
    let transform = transform.expect("the transform of one value");
    let parameters = [
        ("column_type", "u8"),
        ("transform", "u8"),
        ("width", "u32"),
        ("value", "*const u8"),
        ("value_len", "usize"),
        ("out", "*mut u8"),
        ("out_len", "usize"),
        ("count", "*mut u64"),
    ];
    let parameters = parameters.map(|(name, of)| (name.to_string(), of.to_string()));
    assert_eq!(transform.parameters, parameters);
    assert_eq!(transform.result, "u32");
}

/// Every name of the header, of the block and of the source is read: as often as it stands there before a bracket.
#[test]
fn none_is_passed_over() {
    let count = |text: &str| {
        let behind = text.split("weighpick_").skip(1);
        let named = behind.filter(|rest| {
            rest.trim_start_matches(|c: char| c.is_ascii_lowercase() || c == '_')
                .starts_with('(')
        });
        named.count()
    };
    assert_eq!(in_header(HEADER).len(), count(HEADER));
    assert_eq!(in_block(BLOCK).len(), count(BLOCK));
    assert_eq!(in_source(SOURCE).len(), count(SOURCE));
}

/// The table of the page has a line for each function, in the header's order.
#[test]
fn in_the_table() {
    let lines = PAGE.lines().filter_map(|line| line.strip_prefix("| `"));
    let names = lines.filter_map(|line| Some(line.split_once('`')?.0));
    let names = names.filter(|name| name.starts_with("weighpick_"));
    assert!(names.eq(in_header(HEADER).iter().map(|f| f.name.as_str())));
}

/// What stands in a text, and what a slip puts in its place.
type Slip = (&'static str, &'static str);

/// Each slip by itself makes another list of functions: two parameters exchanged; one left out, of another type, written to in place
/// of read, or of another name; one where there is none; another result; another function.
fn slips_show(text: &str, read: fn(&str) -> Vec<Function>, slips: [Slip; 8]) {
    for (there, instead) in slips {
        let slipped = text.replacen(there, instead, 1);
        assert_ne!(slipped, text, "`{there}` is not there");
        assert_ne!(read(&slipped), read(text), "`{instead}`");
    }
}

#[test]
fn slips_in_the_header() {
    let slips = [
        (
            "uint8_t column_type, uint8_t transform",
            "uint8_t transform, uint8_t column_type",
        ),
        ("uint32_t width, ", ""),
        ("uint32_t width", "uint64_t width"),
        ("const uint8_t *value", "uint8_t *value"),
        ("uint64_t *lowest", "uint64_t *least"),
        ("weighpick_version(void)", "weighpick_version(uint32_t of)"),
        ("uint32_t weighpick_holds", "uint64_t weighpick_holds"),
        ("weighpick_filter_row(", "weighpick_filter_project("),
    ];
    slips_show(HEADER, in_header, slips);
}

#[test]
#[should_panic(expected = "weighpick_version without `void`")]
fn empty_brackets_in_the_header() {
    in_header(&HEADER.replacen("weighpick_version(void)", "weighpick_version()", 1));
}

#[test]
fn slips_in_the_block() {
    let slips = [
        (
            "column_type: u8,\n        transform: u8",
            "transform: u8,\n        column_type: u8",
        ),
        ("width: u32,", ""),
        ("width: u32", "width: u64"),
        ("value: *const u8", "value: *mut u8"),
        ("lowest: *mut u64", "least: *mut u64"),
        ("weighpick_version()", "weighpick_version(of: u32)"),
        ("-> u32", "-> u64"),
        ("weighpick_filter_row(", "weighpick_filter_project("),
    ];
    slips_show(BLOCK, in_block, slips);
}

#[test]
fn slips_in_the_source() {
    let slips = [
        (
            "column_type: u8,\n    transform: u8",
            "transform: u8,\n    column_type: u8",
        ),
        ("width: u32,", ""),
        ("width: u32", "width: u64"),
        ("value: &[u8]", "value: &mut [u8]"),
        ("lowest: &mut u64", "least: &mut u64"),
        ("weighpick_version()", "weighpick_version(of: u32)"),
        ("-> u32\n    ensures { ", "-> u64\n    ensures { "),
        ("weighpick_filter_row(", "weighpick_filter_project("),
    ];
    slips_show(SOURCE, in_source, slips);
}
