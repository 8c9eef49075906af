//! That include/maztubel.h and src/raw.rs declare what crates/maztubel_c exports and nothing else: each function by its
//! name, its parameters in order with their names and types, and the type that it returns. A linker compares none of
//! this. And that each export promises word for word what the entry of its name in crates/maztubel promises.

use std::collections::BTreeMap;
use std::fs;
use std::path::Path;

/// In C's words: the type that is returned and those of the parameters, each with the parameter's name.
#[derive(Clone, Debug, PartialEq)]
struct Signature {
    returns: String,
    parameters: Vec<(String, String)>,
}

type Signatures = BTreeMap<String, Signature>;

/// What stands before a mark and behind it, at its first place.
fn cut<'a>(text: &'a str, mark: &str) -> (&'a str, &'a str) {
    text.split_once(mark)
        .unwrap_or_else(|| panic!("no {mark} in {text}"))
}

/// The words of a text, with one space between.
fn plain(text: &str) -> String {
    text.split_whitespace().collect::<Vec<&str>>().join(" ")
}

fn insert(all: &mut Signatures, name: &str, signature: Signature) {
    let earlier = all.insert(name.to_owned(), signature);
    assert_eq!(earlier, None, "{name} stands there twice");
}

// ---- C

fn without_comments(header: &str) -> String {
    let mut pieces = header.split("/*");
    let first = pieces.next().unwrap_or_default().to_owned();
    pieces.fold(first, |text, piece| text + cut(piece, "*/").1)
}

/// `const double *xs` as the type `const double *` and the name `xs`.
fn c_parameter(text: &str) -> (String, String) {
    let text = plain(text);
    let name = text.rsplit([' ', '*']).next().unwrap_or_default();
    let kind = text[..text.len() - name.len()].trim_end();
    (kind.to_owned(), name.to_owned())
}

/// Of every declaration of a function, with or without a name of ours.
fn in_header(header: &str) -> Signatures {
    let directive = |line: &&str| !line.starts_with('#');
    let code = without_comments(header);
    let code: Vec<&str> = code.lines().filter(directive).collect();
    let mut all = Signatures::new();
    for piece in code
        .join("\n")
        .split(';')
        .filter(|piece| piece.contains('('))
    {
        let declared = piece.rsplit(['{', '}']).next().unwrap_or_default();
        let (head, behind) = cut(declared, "(");
        let (parameters, rest) = cut(behind, ")");
        assert_eq!(rest.trim(), "", "behind the parameters of {head}");
        let (returns, name) = c_parameter(head);
        let parameters = parameters.split(',').map(c_parameter).collect();
        insert(
            &mut all,
            &name,
            Signature {
                returns,
                parameters,
            },
        );
    }
    all
}

// ---- Rattle and Rust

fn c_number(kind: &str) -> &str {
    match kind {
        "f64" => "double",
        "u8" => "uint8_t",
        "u32" => "uint32_t",
        "u64" => "uint64_t",
        "usize" => "size_t",
        other => panic!("{other} has no type in C here"),
    }
}

/// The parameters of C that one parameter is. A slice is two: a pointer, and its length under the slice's name.
fn c_parameters(text: &str) -> Vec<(String, String)> {
    let text = plain(text);
    let (name, kind) = cut(&text, ": ");
    let one = |kind: String| vec![(kind, name.to_owned())];
    let slice = |kind: String| {
        vec![
            (kind, name.to_owned()),
            ("size_t".to_owned(), format!("{name}_length")),
        ]
    };
    if let Some(element) = kind.strip_prefix("&[") {
        slice(format!(
            "const {} *",
            c_number(element.trim_end_matches(']'))
        ))
    } else if let Some(element) = kind.strip_prefix("&mut [") {
        slice(format!("{} *", c_number(element.trim_end_matches(']'))))
    } else if let Some(element) = kind.strip_prefix("*const ") {
        one(format!("const {} *", c_number(element)))
    } else if let Some(element) = kind.strip_prefix("*mut ").or(kind.strip_prefix("&mut ")) {
        one(format!("{} *", c_number(element)))
    } else {
        one(c_number(kind).to_owned())
    }
}

/// The functions whose signatures stand behind `mark`, with the name first; the type that is returned ends at a space,
/// a line's end or a semicolon.
fn behind_mark(text: &str, mark: &str, all: &mut Signatures) {
    for piece in text.split(mark).skip(1) {
        let (name, behind) = cut(piece, "(");
        let (parameters, rest) = cut(behind, ")");
        let returned = rest
            .strip_prefix(" -> ")
            .unwrap_or_else(|| panic!("{name} returns nothing"));
        let returned = returned.split([' ', '\n', ';']).next().unwrap_or_default();
        let parameters = parameters.split(',').filter(|text| !text.trim().is_empty());
        let parameters = parameters.flat_map(c_parameters).collect();
        let returns = c_number(returned).to_owned();
        insert(
            all,
            name,
            Signature {
                returns,
                parameters,
            },
        );
    }
}

/// What stands before the name of an export.
const EXPORT: &str = "#[unsafe(no_mangle)]\npub extern \"C\" fn ";

fn exported(sources: &[String]) -> Signatures {
    let mut all = Signatures::new();
    for source in sources {
        behind_mark(source, EXPORT, &mut all);
        let marks = source.matches("no_mangle").count();
        assert_eq!(marks, source.matches("extern \"C\" fn ").count());
        assert_eq!(marks, source.matches(EXPORT).count());
    }
    all
}

fn declared_for_rust(raw: &str) -> Signatures {
    let mut all = Signatures::new();
    behind_mark(&raw.replace("pub safe fn ", "pub fn "), "pub fn ", &mut all);
    all
}

// ---- the three texts

fn repository(file: &str) -> String {
    let path = Path::new(env!("CARGO_MANIFEST_DIR"))
        .join("../..")
        .join(file);
    fs::read_to_string(&path).unwrap_or_else(|error| panic!("{}: {error}", path.display()))
}

fn sources() -> Vec<String> {
    sources_of("maztubel_c")
}

fn sources_of(name: &str) -> Vec<String> {
    let folder = Path::new(env!("CARGO_MANIFEST_DIR"))
        .join("../../crates")
        .join(name)
        .join("src");
    let files = fs::read_dir(folder)
        .unwrap()
        .map(|file| file.unwrap().path());
    files
        .filter(|file| file.extension().is_some_and(|end| end == "rt"))
        .map(|file| fs::read_to_string(file).unwrap())
        .collect()
}

/// By the name of each entry the text of its signature and its clauses.
fn promises(sources: &[String], mark: &str) -> BTreeMap<String, String> {
    let pieces = sources.iter().flat_map(|source| source.split(mark).skip(1));
    pieces
        .filter(|piece| piece.starts_with("maztubel_"))
        .map(|piece| {
            let promise = cut(piece, "\n{\n").0;
            (cut(promise, "(").0.to_owned(), promise.to_owned())
        })
        .collect()
}

#[test]
fn the_header_declares_the_exports() {
    let exported = exported(&sources());
    assert!(21 <= exported.len(), "{} exports", exported.len());
    assert_eq!(in_header(&repository("include/maztubel.h")), exported);
}

#[test]
fn raw_declares_the_exports() {
    let raw = repository("bindings/rust/src/raw.rs");
    assert_eq!(declared_for_rust(&raw), exported(&sources()));
}

#[test]
fn an_export_promises_what_its_entry_does() {
    let exports = promises(&sources(), EXPORT);
    assert_eq!(exports.len(), exported(&sources()).len());
    assert_eq!(exports, promises(&sources_of("maztubel"), "\npub fn "));
}

/// A text of the header and what a fault would make of it: a parameter dropped, two of one type swapped, another type,
/// another order, a length that is missing, a constant buffer that is not, another answer, a function that is not
/// exported, and one missing.
const FAULTS: [(&str, &str); 9] = [
    (
        "maztubel_sine(double x, double *answer)",
        "maztubel_sine(double *answer)",
    ),
    (
        "maztubel_arctangent(double y, double x,",
        "maztubel_arctangent(double x, double y,",
    ),
    (
        "uint64_t rotary, uint64_t *number,",
        "uint32_t rotary, uint64_t *number,",
    ),
    (
        "uint64_t *chain_at, uint64_t *chain_length,",
        "uint64_t *chain_length, uint64_t *chain_at,",
    ),
    ("(const double *cs, size_t cs_length,", "(const double *cs,"),
    (
        "uint32_t maztubel_job_poses(const uint8_t *job,",
        "uint32_t maztubel_job_poses(uint8_t *job,",
    ),
    ("uint32_t maztubel_read_job(", "uint64_t maztubel_read_job("),
    ("uint32_t maztubel_forward(", "uint32_t maztubel_backward("),
    ("uint32_t maztubel_cosine(double x, double *answer);", ""),
];

#[test]
fn a_fault_of_the_header_is_seen() {
    let (header, exported) = (repository("include/maztubel.h"), exported(&sources()));
    for (right, wrong) in FAULTS {
        assert_eq!(header.matches(right).count(), 1, "{right}");
        assert_ne!(
            in_header(&header.replace(right, wrong)),
            exported,
            "{wrong}"
        );
    }
}

/// The same in an export: a parameter dropped, two swapped, another type, a slice that may be written, and another
/// answer.
const CHANGES: [(&str, &str); 5] = [
    (
        "fn maztubel_cosine(x: f64, answer: &mut f64)",
        "fn maztubel_cosine(answer: &mut f64)",
    ),
    (
        "fn maztubel_arctangents(ys: &[f64], xs: &[f64],",
        "fn maztubel_arctangents(xs: &[f64], ys: &[f64],",
    ),
    (
        "fn maztubel_arccosine(c: f64,",
        "fn maztubel_arccosine(c: u64,",
    ),
    (
        "fn maztubel_sines(xs: &[f64],",
        "fn maztubel_sines(xs: &mut [f64],",
    ),
    (
        "answer: &mut f64) -> u32\n    ensures number { result ≡ number_of (Waves.sine_of x)",
        "answer: &mut f64) -> u64\n    ensures number { result ≡ number_of (Waves.sine_of x)",
    ),
];

#[test]
fn a_change_of_an_export_is_seen() {
    let (header, sources) = (in_header(&repository("include/maztubel.h")), sources());
    for (old, new) in CHANGES {
        let places: usize = sources
            .iter()
            .map(|source| source.matches(old).count())
            .sum();
        assert_eq!(places, 1, "{old}");
        let changed: Vec<String> = sources
            .iter()
            .map(|source| source.replace(old, new))
            .collect();
        assert_ne!(exported(&changed), header, "{new}");
    }
}
