//! `src/ffi.rs` held against `include/pktfmt.h`, both as text: structs, codes, limits and functions. And the version.

use std::collections::BTreeMap;
use std::mem::size_of;

use pktfmt_checked::ffi;

const C: &str = include_str!(concat!(env!("CARGO_MANIFEST_DIR"), "/../include/pktfmt.h"));
const RUST: &str = include_str!("../src/ffi.rs");

/// The reasons are written by `tools/reasons`, there and here.
const REASONS: [&str; 2] = ["/* reasons: begin", "/* reasons: end"];

/// The header without comments, and without the reasons.
fn header() -> String {
    let [begin, end] = REASONS.map(|mark| C.find(mark).expect("the header has its reasons between two marks"));
    let mut pieces = [&C[..begin], &C[end..]].concat();
    while let Some(at) = pieces.find("/*") {
        let size = pieces[at..].find("*/").expect("a comment ends") + 2;
        pieces.replace_range(at..at + size, "");
    }
    pieces
}

/// What stands between two marks, each time.
fn between<'a>(text: &'a str, begin: &'a str, end: &'a str) -> impl Iterator<Item = &'a str> {
    text.split(begin).skip(1).map(move |rest| rest.split(end).next().expect("a first piece"))
}

/// A text with one space between words, and none beside brackets.
fn spaced(text: &str) -> String {
    text.split_whitespace().collect::<Vec<_>>().join(" ").replace("( ", "(").replace(" )", ")")
}

/// A struct's name in Rust: `pktfmt_refusal` is `Refusal`.
fn struct_name(c: &str) -> String {
    let word = c.trim().strip_prefix("pktfmt_").expect("a struct of the header");
    word[..1].to_uppercase() + &word[1..]
}

fn type_in_rust(c: &str) -> String {
    match c.trim() {
        "bool" => "bool".into(),
        "char" => "c_char".into(),
        "size_t" => "usize".into(),
        "uint8_t" => "u8".into(),
        "uint64_t" => "u64".into(),
        other => struct_name(other.strip_prefix("struct ").expect("no other type is used")),
    }
}

/// A name and its type in Rust, of a member or an argument in C. An array is a pointer where it is an argument.
fn declared(c: &str, is_argument: bool) -> String {
    let (place, c) = match c.trim().strip_prefix("const ") {
        Some(rest) => ("*const ", rest),
        None => ("*mut ", c.trim()),
    };
    let (base, name) = c.rsplit_once([' ', '*']).expect("a type and a name");
    if let Some((name, count)) = name.split_once("[PKTFMT_") {
        let array = format!("[{}; {}", type_in_rust(base), count);
        return format!("{name}: {}{array}", if is_argument { place } else { "" });
    }
    let is_pointer = c.contains('*');
    format!("{name}: {}{}", if is_pointer { place } else { "" }, type_in_rust(base.trim_end_matches('*')))
}

#[test]
fn structs_have_the_same_members_in_the_same_order() {
    let header = header();
    let in_c = between(&header, "\nstruct ", "};").map(|text| {
        let (name, members) = text.split_once('{').expect("members");
        let members = members.split_terminator(';').filter(|member| !member.trim().is_empty());
        (struct_name(name), members.map(|member| declared(member, false)).collect())
    });
    let in_rust = between(RUST, "\n#[repr(C)]\n", "\n}").map(|text| {
        let (name, members) =
            text.split_once("pub struct ").and_then(|(_, rest)| rest.split_once('{')).expect("a struct");
        let members = members.lines().filter_map(|line| line.trim().strip_prefix("pub "));
        (name.trim().to_string(), members.map(|member| member.trim_end_matches(',').to_string()).collect())
    });
    let [in_c, in_rust]: [Vec<(String, Vec<String>)>; 2] = [in_c.collect(), in_rust.collect()];
    assert_eq!(in_c, in_rust);
    assert_eq!(in_c.len(), 8);
}

#[test]
fn structs_have_the_sizes_of_their_numbers() {
    let sizes = [
        size_of::<ffi::Refusal>(),
        size_of::<ffi::Header>(),
        size_of::<ffi::Locator>(),
        size_of::<ffi::Span>(),
        size_of::<ffi::Field>(),
        size_of::<ffi::Length>(),
        size_of::<ffi::Range>(),
        size_of::<ffi::Condition>(),
    ];
    assert_eq!(sizes.map(|bytes| bytes / 8), [3, 3, 6, 2, 14, 5, 2, 50]);
}

#[test]
fn codes_and_limits_have_the_same_values() {
    let header = header();
    let codes = between(&header, "\nenum ", "};").flat_map(|text| text.split('{').nth(1).expect("codes").split(','));
    let codes = codes.map(|code| code.split_once('=').expect("a code and its value"));
    let limits = between(&header, "#define PKTFMT_", "\n").filter(|line| !line.starts_with("VERSION"));
    let limits = limits.filter_map(|line| line.split_once(' '));
    let in_c =
        codes.chain(limits).map(|(name, value)| (name.trim().trim_start_matches("PKTFMT_"), value.trim().into()));
    let in_rust = between(RUST, "pub const ", ";\n").map(|line| {
        let (name, value) = line.split_once(": ").expect("a type");
        (name, value.split_once("= ").expect("a value").1.replace('_', ""))
    });
    let in_c: BTreeMap<&str, String> = in_c.collect();
    let in_rust: BTreeMap<&str, String> = in_rust.filter(|(name, _)| *name != "VERSION").collect();
    assert_eq!(in_c, in_rust);
    assert_eq!(in_c.len(), 28);
}

#[test]
fn functions_have_the_same_arguments() {
    let header = header();
    let lines = header.split("extern \"C\" {").nth(1).expect("functions are C's for C++ too").lines();
    let code: String = lines.filter(|line| !line.starts_with('#')).map(|line| format!("{line}\n")).collect();
    let in_c = code.split(';').filter_map(|text| text.trim().split_once('(')).map(|(head, arguments)| {
        let (gives, name) = head.rsplit_once([' ', '\n']).expect("a type and a name");
        let arguments = arguments.trim_end_matches(')').split(',').filter(|argument| *argument != "void");
        let arguments: Vec<_> = arguments.map(|argument| declared(argument, true)).collect();
        format!("pub fn {name}({}) -> {}", arguments.join(", "), type_in_rust(gives))
    });
    let declarations = between(RUST, "extern \"C\" {", "\n    }").next().expect("the declarations");
    let in_rust = declarations.trim_end_matches(';').split(";\n").map(spaced);
    assert_eq!(in_c.collect::<Vec<_>>(), in_rust.collect::<Vec<_>>());
}

#[test]
fn the_version_is_one() {
    let part = |name: &str| {
        let line = between(C, name, "\n").next().expect("the header has its version");
        line.trim().parse::<u64>().expect("a number")
    };
    let [major, minor, patch] =
        ["_MAJOR ", "_MINOR ", "_PATCH "].map(|name| part(&format!("#define PKTFMT_VERSION{name}")));
    assert_eq!(format!("{major}.{minor}.{patch}"), env!("CARGO_PKG_VERSION"));
    assert_eq!(major * 1_000_000 + minor * 1_000 + patch, ffi::VERSION);
    assert_eq!(ffi::version(), ffi::VERSION);
}
