//! The types and the calls of this crate are those of `kilambosetry_service.h`: the fields of each, in order, with their types, and the
//! calls with their parameters. Both are read as texts, since the one is C.
use std::collections::BTreeMap;
use std::fs;
use std::path::Path;

// A list of fields or parameters, each a type and a name.
type Fields = Vec<(String, String)>;

fn text_of(path: &str) -> String {
    fs::read_to_string(Path::new(env!("CARGO_MANIFEST_DIR")).join(path)).unwrap()
}

// The header, without its comments.
fn header() -> String {
    let text = text_of("../c/kilambosetry_service.h");
    text.split("/*").map(|part| part.split_once("*/").map_or(part, |(_, behind)| behind)).collect()
}

fn sources() -> String {
    let files = fs::read_dir(Path::new(env!("CARGO_MANIFEST_DIR")).join("src")).unwrap();
    files.map(|file| fs::read_to_string(file.unwrap().path()).unwrap()).collect()
}

// The text between these two, at each place where the first stands, and what stands before it.
fn pieces<'a>(text: &'a str, begins: &'a str, ends: &'a str) -> impl Iterator<Item = (&'a str, &'a str)> {
    let places = text.match_indices(begins).map(move |(at, _)| (&text[..at], &text[at + begins.len()..]));
    places.map(move |(before, behind)| (before, behind.split_once(ends).unwrap().0))
}

// What both languages' words for a type come to: its size and kind, and whether it is a pointer.
fn kind(word: &str) -> &str {
    match word {
        "uint64_t" | "u64" => "64 bits",
        "int64_t" | "i64" => "64 bits with a sign",
        "uint32_t" | "u32" => "32 bits",
        "uint16_t" | "u16" => "16 bits",
        "uint8_t" | "u8" => "8 bits",
        "int" | "i32" => "int",
        "size_t" | "usize" => "size",
        "bool" => "bool",
        "kilambosetry_pool" | "Pool" => "pool",
        "kilambosetry_flash" | "Flash" => "flash",
        "kilambosetry_losses_t" | "Losses" => "losses",
        "kilambosetry_value" | "Held" => "value",
        other => panic!("{other} is no type of the header"),
    }
}

// A field or parameter of C. A function is a pointer.
fn c_field(line: &str) -> (String, String) {
    if let Some((_, name)) = line.split_once("(*") {
        return ("pointer".to_string(), name.split_once(')').unwrap().0.to_string());
    }
    let (of, name) = line.rsplit_once([' ', '*']).unwrap();
    let of = if line.contains('*') { "pointer" } else { kind(of.trim()) };
    (of.to_string(), name.to_string())
}

// One of Rust. What is a reference there, or an optional one, is a pointer in C.
fn rust_field(line: &str) -> (String, String) {
    let (name, of) = line.split_once(':').unwrap();
    let of = of.trim();
    let is_pointer = of.starts_with(['*', '&']) || of.starts_with("Option<") || of.contains("extern \"C\" fn");
    let of = if is_pointer { "pointer" } else { kind(of) };
    (of.to_string(), name.trim().trim_start_matches("pub ").to_string())
}

// The types of the header by their names, without `kilambosetry_`.
fn c_types() -> BTreeMap<String, Fields> {
    let header = header();
    let types = pieces(&header, "typedef struct {", "}").map(|(before, fields)| {
        let behind = &header[before.len() + "typedef struct {".len() + fields.len() + 1..];
        let name = behind.split_once(';').unwrap().0.trim().trim_start_matches("kilambosetry_");
        (name.to_string(), fields.split(';').map(str::trim).filter(|line| !line.is_empty()).map(c_field).collect())
    });
    types.collect()
}

// The fields of a type of this crate, or of the numbers of the crate below.
fn rust_type(sources: &str, name: &str) -> Fields {
    let begins = format!("pub struct {name} {{");
    let (_, fields) = pieces(sources, &begins, "\n}").next().unwrap_or_else(|| panic!("there is no {name}"));
    let lines = fields.split(",\n").flat_map(str::lines).map(|line| line.trim().trim_end_matches(','));
    let lines = lines.filter(|line| !line.is_empty() && !line.starts_with("//"));
    lines
        .flat_map(|line| match line.rsplit_once(": ") {
            Some(("numbers", of)) => rust_type(sources, of),
            _ => vec![rust_field(line)],
        })
        .collect()
}

#[test]
fn types_are_those_of_the_header() {
    let sources = sources() + &text_of("../rust/src/border.rs");
    let names = [
        ("service_options", "ServiceOptions"),
        ("service_numbers", "ServiceNumbers"),
        ("why", "Why"),
        ("device", "ServiceDevice"),
        ("lease", "ServiceLease"),
        ("change", "ServiceChange"),
        ("begun", "ServiceBegun"),
        ("wanted", "ServiceWanted"),
        ("service_stats", "ServiceStats"),
        ("kept", "ServiceKept"),
        ("gone", "ServiceGone"),
    ];
    let of_c = c_types();
    assert_eq!(of_c.len(), names.len(), "{:?}", of_c.keys());
    for (c_name, rust_name) in names {
        assert_eq!(of_c[c_name], rust_type(&sources, rust_name), "{c_name}");
    }
}

// The calls of a text by their names: `begins` and the name, and then the parameters, up to `ends`.
fn calls(text: &str, begins: &str, ends: &str, field: fn(&str) -> (String, String)) -> BTreeMap<String, Vec<String>> {
    let declared = pieces(text, begins, ends).map(|(_, call)| {
        let (name, parameters) = call.split_once('(').unwrap();
        let parameters = parameters.split(',').map(str::trim).filter(|parameter| !parameter.is_empty());
        (name.to_string(), parameters.map(|parameter| field(parameter).0).collect())
    });
    declared.filter(|(name, _): &(String, _)| name != "strerror").collect()
}

#[test]
fn calls_are_those_of_the_header() {
    let header = header();
    let mut of_c = calls(&header, "uint8_t kilambosetry_service_", ")", c_field);
    of_c.extend(calls(&header, "void kilambosetry_service_", ")", c_field));
    let of_rust = calls(&sources(), "extern \"C\" fn kilambosetry_service_", ")", rust_field);
    assert!(of_c.len() > 20, "{of_c:?}");
    assert_eq!(of_c, of_rust);
}

#[test]
fn what_is_said_of_what_was_kept_is_of_the_header() {
    let header = header();
    let kept = text_of("src/kept.rs");
    let constants: Vec<_> = pieces(&kept, "\nconst ", ";").collect();
    assert!(constants.len() > 15);
    for (_, constant) in constants {
        let (name, number) = constant.split_once(": u8 = ").unwrap();
        assert!(header.contains(&format!("KILAMBOSETRY_KEPT_{name} = {number}")), "{name}");
    }
}

#[test]
fn causes_are_those_of_the_header() {
    let (header, listening) = (header(), text_of("src/listening.rs"));
    let causes: Vec<_> =
        pieces(&listening, " Cause::", ",").map(|(_, cause)| cause.split_once(" => ").unwrap()).collect();
    assert_eq!(causes.len(), 16);
    for (name, number) in causes {
        let words =
            name.char_indices().map(|(at, of)| if at > 0 && of.is_uppercase() { format!("_{of}") } else { of.into() });
        let words = words.collect::<String>().to_uppercase();
        assert!(header.contains(&format!("KILAMBOSETRY_GONE_{words} = {number}")), "{name}");
    }
}

#[test]
fn statuses_are_those_of_the_headers() {
    let headers = header() + &text_of("../c/kilambosetry.h");
    let status = text_of("src/status.rs");
    let constants: Vec<_> = pieces(&status, "pub const ", ";").collect();
    assert!(constants.len() > 15);
    for (_, constant) in constants {
        let (name, number) = constant.split_once(": u8 = ").unwrap();
        assert!(headers.contains(&format!("KILAMBOSETRY_{name} = {number}")), "{name}");
    }
}
