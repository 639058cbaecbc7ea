//! The crate's own numbers and declarations against `include/tautberry.h`.

use std::collections::BTreeMap;
use std::fs;

use tautberry::*;

/// A file of the repository, by its path from the crate's folder, in which Cargo runs tests.
fn file(path: &str) -> String {
    fs::read_to_string(path).unwrap_or_else(|error| panic!("{path}: {error}"))
}

/// The header without its comments.
fn header() -> String {
    let text = file("../include/tautberry.h");
    let mut parts = text.split("/*");
    let mut code = parts.next().expect("a first part").to_string();
    for part in parts {
        let (_, after) = part.split_once("*/").expect("a comment ends");
        code.push_str(after);
    }
    code
}

/// What a line of the header defines: `TB_NAME` and the text behind it.
fn defined() -> BTreeMap<String, String> {
    let header = header();
    let lines = header.lines().filter_map(|line| line.strip_prefix("#define TB_"));
    let pairs = lines.map(|line| line.split_at(name_end(line)));
    pairs.map(|(name, text)| (name.to_string(), text.trim().to_string())).collect()
}

/// Where the name of a definition ends, and its parameters, where it has some.
fn name_end(line: &str) -> usize {
    let end = line.find([' ', '(']).expect("a text behind the name");
    match line[end..].find(')') {
        Some(parameters) if line[end..].starts_with('(') => end + parameters + 1,
        _ => end,
    }
}

/// A number as C writes it.
fn number(text: &str) -> Option<u64> {
    let digits = text.strip_suffix('u').unwrap_or(text);
    match digits.strip_prefix("0x") {
        Some(hex) => u64::from_str_radix(hex, 16).ok(),
        None => digits.parse().ok(),
    }
}

#[test]
fn refusals_are_those_of_the_header() {
    let header = header();
    let (_, list) = header.split_once("enum tb_refusal {").expect("the refusals");
    let (list, _) = list.split_once('}').expect("their end");
    let rows = list.split(',').filter_map(|row| row.split_once('='));
    let theirs: Vec<(String, u32)> = rows
        .map(|(name, number)| (name.trim().to_string(), number.trim().parse().expect("a number")))
        .collect();

    let mut ours = vec![("TB_ACCEPTED".to_string(), 0)];
    for refusal in Refusal::ALL {
        let name = refusal.name().to_uppercase().replace(' ', "_");
        ours.push((format!("TB_{name}"), refusal.number()));
    }
    assert_eq!(theirs, ours);

    // 19 names beside the first; 12 has none, and neither have 19 and 20.
    let numbers: Vec<u32> = theirs.into_iter().map(|(_, number)| number).collect();
    let expected: Vec<u32> = (0..12).chain(13..=18).chain([21, 22]).collect();
    assert_eq!(numbers, expected);
}

#[test]
fn numbers_turn_into_refusals_and_back() {
    for number in (1..12).chain(13..=18).chain([21, 22]) {
        assert_eq!(Refusal::of_number(number).map(Refusal::number), Some(number));
    }
    for number in [0, 12, 19, 20, 23, u32::MAX] {
        assert_eq!(Refusal::of_number(number), None);
    }
    assert_eq!(Refusal::NoSpare.to_string(), "refused 13: no spare");
    assert_eq!(Refusal::NoMode.to_string(), "refused 21: no mode");
    assert_eq!(Refusal::UnknownCode.to_string(), "refused 22: unknown code");
}

/// The crate's constants by name.
macro_rules! constants {
    ($($name:ident),* $(,)?) => {
        BTreeMap::from([$((stringify!($name).to_string(), u64::from($name as u32))),*])
    };
}

#[test]
fn limits_are_those_of_the_header() {
    let mut ours = constants![
        UNITS_MOST,
        CYLINDERS_MOST,
        HEADS_MOST,
        SECTORS_LEAST,
        SECTORS_MOST,
        LIST_MOST,
        SPARES_MOST,
        TABLE_BLOCK,
        DATA_SIZE,
        WIDE_SIZE,
        HEADER_SIZE,
        IMAGE_EXTRA,
        START_CODE,
        CODE_UNIT,
        AT_HOME,
        AT_PRIMARY,
        ELSEWHERE,
        PAGE_FRAME,
        ENTRY_SIZE,
        KIND_MOST,
        OPTION_MOST,
        SPACE_MOST,
    ];
    // The listing program's own limit, which no call has.
    ours.insert("LISTING_MOST".to_string(), 16_398);
    let mut theirs = BTreeMap::new();
    let mut made = BTreeMap::new();
    for (name, text) in defined() {
        match number(&text) {
            Some(number) => theirs.insert(name, number).map(|_| ()),
            None => made.insert(name, text).map(|_| ()),
        };
    }
    assert_eq!(theirs, ours);

    // What the header makes of these, the crate makes in the same way.
    let expected = [
        ("CODE_OF(word)", "((word) / TB_CODE_UNIT)"),
        ("IMAGE_LENGTH(size)", "((size) + TB_IMAGE_EXTRA)"),
        ("NUMBER_OF(word)", "((word) % TB_CODE_UNIT)"),
        ("PAGE_LENGTH(entries)", "(TB_PAGE_FRAME + TB_ENTRY_SIZE * (entries))"),
        ("PAGE_MOST", "TB_PAGE_LENGTH(TB_LIST_MOST)"),
        (
            "TABLE_LENGTH(spares)",
            "(TB_TABLE_BLOCK * (((spares) + TB_TABLE_BLOCK - 1u) / TB_TABLE_BLOCK))",
        ),
        ("TRACK_LENGTH(size, sectors)", "(TB_IMAGE_LENGTH(size) * (sectors))"),
    ];
    let expected = expected.map(|(name, text)| (name.to_string(), text.to_string()));
    assert_eq!(made, BTreeMap::from(expected));
    assert_eq!(PAGE_MOST, 262_158);
    let words = [0, 7, 0x0FFF_FFFF, 0x1000_0000, 0x2000_0007, 0x3FFF_FFFF, 0x8000_0000, u32::MAX];
    assert_eq!(words.map(code_of), [0, 0, 0, 1, 2, 3, 8, 15]);
    let numbers = [0, 7, 0x0FFF_FFFF, 0, 7, 0x0FFF_FFFF, 0, 0x0FFF_FFFF];
    assert_eq!(words.map(number_of), numbers);
    assert_eq!([DATA_SIZE, WIDE_SIZE].map(image_length), [530, 594]);
    assert_eq!([DATA_SIZE, WIDE_SIZE].map(|size| track_length(size, 5)), [2_650, 2_970]);
    assert_eq!(page_length(2), 22);
    assert_eq!([0, 1, 128, 129, 65_536].map(table_length), [0, 128, 128, 256, 65_536]);
}

/// A C type with its name, as Rust writes the pair.
fn in_rust(declaration: &str) -> String {
    let declaration = declaration.trim();
    let start = declaration.rfind([' ', '*']).expect("a type and a name") + 1;
    let (kind, name) = declaration.split_at(start);
    format!("{name}: {}", type_in_rust(kind))
}

fn type_in_rust(kind: &str) -> String {
    let kind = kind.trim();
    if let Some(target) = kind.strip_suffix('*') {
        return match target.trim().strip_prefix("const ") {
            Some(target) => format!("*const {}", type_in_rust(target)),
            None => format!("*mut {}", type_in_rust(target)),
        };
    }
    match kind {
        "uint32_t" => "u32".to_string(),
        "int32_t" => "i32".to_string(),
        "uint8_t" => "u8".to_string(),
        "size_t" => "usize".to_string(),
        "bool" => "bool".to_string(),
        _ => {
            let name = kind.strip_prefix("tb_").unwrap_or_else(|| panic!("a type {kind}"));
            name[..1].to_uppercase() + &name[1..]
        }
    }
}

/// The words of a declaration, one blank between them.
fn one_line(text: &str) -> String {
    text.split_whitespace().collect::<Vec<_>>().join(" ")
}

/// The Rust files that declare the C face, without comments and line breaks.
fn declarations() -> String {
    let files = ["src/ffi.rs", "src/shape.rs", "src/skip.rs"].map(file).join("\n");
    let lines = files.lines().filter(|line| !line.trim_start().starts_with("//"));
    one_line(&lines.collect::<Vec<_>>().join("\n")).replace("( ", "(").replace(", )", ")")
}

#[test]
fn structs_are_those_of_the_header() {
    let (header, rust) = (header(), declarations());
    let mut count = 0;
    for part in header.split("typedef struct ").skip(1) {
        let (name, fields) = part.split_once('{').expect("fields");
        let (fields, _) = fields.split_once('}').expect("their end");
        let fields: String = fields
            .split(';')
            .filter(|field| !field.trim().is_empty())
            .map(|field| format!("pub {}, ", in_rust(&one_line(field))))
            .collect();
        let wanted = format!("#[repr(C)] pub struct {} {{ {fields}}}", type_in_rust(name));
        assert!(rust.contains(&wanted), "not declared: {wanted}");
        count += 1;
    }
    assert_eq!(rust.matches("#[repr(C)]").count(), count);
}

#[test]
fn functions_are_those_of_the_header() {
    let (header, rust) = (header(), declarations());
    let mut count = 0;
    for statement in header.split(';').map(one_line) {
        let Some((result_and_name, parameters)) = statement.split_once('(') else {
            continue;
        };
        let words: Vec<&str> = result_and_name.rsplitn(3, ' ').collect();
        let [name, result, ..] = words[..] else {
            continue;
        };
        if !name.starts_with("tb_") {
            continue;
        }
        let parameters = parameters.strip_suffix(')').expect("the end of the parameters");
        let parameters: Vec<String> = parameters.split(',').map(in_rust).collect();
        let parameters = parameters.join(", ");
        let wanted = format!("pub fn {name}({parameters}) -> {};", type_in_rust(result));
        assert!(rust.contains(&wanted), "not declared: {wanted}");
        count += 1;
    }
    assert_eq!(rust.matches("pub fn tb_").count(), count);
    assert_eq!(count, 27);
}

/// The size of a sector stands first, in every call on an image, in the two that look for a block in images of
/// tracks, and in no other.
#[test]
fn size_comes_first() {
    let header = one_line(&header()).replace("( ", "(");
    assert_eq!(header.matches("(uint32_t size, ").count(), 5);
    let others = header.matches("uint32_t size").count() - 5;
    // The field of the answer that goes into them.
    assert_eq!(
        (others, header.matches("{ uint32_t refusal; uint32_t size; } tb_sized;").count()),
        (1, 1)
    );
}

/// Scratch stands right after the table's length, in every call that is lent a table and in no other.
#[test]
fn scratch_follows_the_table() {
    let header = one_line(&header());
    let with_scratch = "table, size_t table_length, uint32_t *scratch, size_t scratch_length";
    let tables = header.matches("table, size_t table_length").count();
    let scratches = header.matches("scratch_length").count();
    assert_eq!((tables, scratches, header.matches(with_scratch).count()), (10, 10, 10));
}
