//! The Rattle source, the header and the wrapper agree on every operation: its name, its
//! parameters, their order and types, and what it answers with. All three texts are parsed.

const RATTLE: &str = include_str!("../../../crates/linnet/src/lib.rt");
const BASE: &str = include_str!("../../../crates/base/src/lib.rt");
const FILE_READER: &str = include_str!("../../../crates/file_reader/src/lib.rt");
const CIRCUIT: &str = include_str!("../../../crates/circuit/src/lib.rt");
const HEADER: &str = include_str!("../../linnet.h");
const WRAPPER: &str = include_str!("../src/lib.rs");

/// A parameter or a field: its name, and its type as Rust writes it.
type Named = (String, String);

#[derive(Debug, PartialEq, Eq, PartialOrd, Ord)]
struct Operation {
    name: String,
    parameters: Vec<Named>,
    answer: String,
}

/// The text between `open` and the next `close` after it, and what follows.
fn between<'a>(text: &'a str, open: &str, close: &str) -> Option<(&'a str, &'a str)> {
    let (_, rest) = text.split_once(open)?;
    rest.split_once(close)
}

/// Parts of a list, without line ends and doubled spaces; a comma may end it.
fn parts(list: &str, comma: char) -> Vec<String> {
    list.split(comma)
        .map(|part| part.split_whitespace().collect::<Vec<_>>().join(" "))
        .filter(|part| !part.is_empty())
        .collect()
}

fn named(part: &str) -> Named {
    let (name, kind) = part.split_once(": ").expect("name: type");
    (name.trim_start_matches("pub ").into(), kind.into())
}

fn sorted(mut operations: Vec<Operation>) -> Vec<Operation> {
    operations.sort();
    operations
}

/// Functions that begin with `start`, whose parameters are Rust's or Rattle's slices.
fn with_slices(text: &str, start: &str) -> Vec<Operation> {
    let mut found = Vec::new();
    for rest in text.split(start).skip(1) {
        let (name, rest) = rest.split_once('(').expect("parameters");
        let (list, rest) = rest.split_once(") -> ").expect("an answer");
        let answer = rest.split_whitespace().next().expect("a type");
        found.push(Operation {
            name: name.into(),
            parameters: parts(list, ',').iter().map(|part| named(part)).collect(),
            answer: answer.into(),
        });
    }
    sorted(found)
}

/// Parameters with pairs of a pointer and its count as slices; `split` gives name and type of each.
fn slices(list: &str, split: impl Fn(&str) -> Named) -> Vec<Named> {
    let mut all = parts(list, ',').into_iter().map(|part| split(&part));
    let mut found = Vec::new();
    while let Some((name, kind)) = all.next() {
        let slice = match kind.split_once(' ') {
            Some(("*const", element)) => format!("&[{element}]"),
            Some(("*mut", element)) => format!("&mut [{element}]"),
            _ => {
                found.push((name, kind));
                continue;
            }
        };
        let count = (format!("{name}_count"), "usize".to_string());
        assert_eq!(all.next(), Some(count), "a pointer's count: {list}");
        found.push((name, slice));
    }
    found
}

/// C's name of a type as Rust writes it.
fn of_c(kind: &str) -> &str {
    match kind {
        "uint8_t" => "u8",
        "uint32_t" => "u32",
        "uint64_t" => "u64",
        "size_t" => "usize",
        "struct linnet_answer" => "Answer",
        "struct linnet_shown" => "Shown",
        "struct linnet_part" => "Part",
        _ => panic!("no such type: {kind}"),
    }
}

/// `const uint8_t *rule`, `size_t rule_count`, `uint32_t rows[1024]`: a name and a type.
fn named_c(part: &str) -> Named {
    let (kind, name) = part.rsplit_once(' ').expect("type name");
    if let Some(name) = name.strip_prefix('*') {
        let kind = match kind.strip_prefix("const ") {
            Some(element) => format!("*const {}", of_c(element)),
            None => format!("*mut {}", of_c(kind)),
        };
        return (name.into(), kind);
    }
    match name.trim_end_matches(']').split_once('[') {
        Some((name, count)) => (name.into(), format!("[{}; {count}]", of_c(kind))),
        None => (name.into(), of_c(kind).into()),
    }
}

fn without_comments(text: &str) -> String {
    let mut kept = String::new();
    let mut rest = text;
    while let Some((before, after)) = rest.split_once("/*") {
        kept.push_str(before);
        rest = after.split_once("*/").expect("a comment's end").1;
    }
    kept + rest
}

fn of_header() -> Vec<Operation> {
    let text = without_comments(HEADER);
    let mut found = Vec::new();
    for statement in text.split(';') {
        if let Some((before, list)) = statement.split_once('(') {
            let (before, name) = before.rsplit_once(" linnet_").expect("a name");
            let answer = before.lines().last().expect("an answer");
            found.push(Operation {
                name: name.into(),
                parameters: slices(list.trim_end_matches(')'), named_c),
                answer: of_c(answer).into(),
            });
        }
    }
    sorted(found)
}

/// What the wrapper says that the archive has.
fn of_extern_blocks() -> Vec<Operation> {
    let mut found = Vec::new();
    for line in WRAPPER.lines() {
        if let Some((name, rest)) = line
            .strip_prefix("    fn linnet_")
            .and_then(|l| l.split_once('('))
        {
            let (list, answer) = rest.split_once(") -> ").expect("an answer");
            found.push(Operation {
                name: name.into(),
                parameters: slices(list, named),
                answer: answer.trim_end_matches(';').into(),
            });
        }
    }
    sorted(found)
}

#[test]
fn every_operation_is_the_same_in_all_texts() {
    let rattle = with_slices(RATTLE, "#[unsafe(no_mangle)]\npub extern \"C\" fn linnet_");
    assert_eq!(rattle.len(), 9);
    assert_eq!(rattle.len(), RATTLE.matches("extern \"C\"").count());
    assert_eq!(of_header(), rattle);
    assert_eq!(of_extern_blocks(), rattle);
    assert_eq!(of_wrapper(), rattle);
}

/// The wrapper's functions; a slice that one gives stands for the part that the archive tells.
fn of_wrapper() -> Vec<Operation> {
    let mut found = with_slices(WRAPPER, "\npub fn ");
    for operation in &mut found {
        if operation.answer == "&[u8]" {
            operation.answer = "Part".into();
        }
    }
    found
}

/// Each function of the wrapper calls its own, with its own parameters in their order, and gives what that
/// answers, or the part of the first parameter that it tells.
#[test]
fn every_function_of_the_wrapper_passes_its_parameters_on() {
    for Operation {
        name,
        parameters,
        answer,
    } in of_wrapper()
    {
        let given: Vec<String> = parameters
            .iter()
            .map(|(name, kind)| match kind.split_once('[') {
                Some(("&mut ", _)) => format!("{name}.as_mut_ptr(), {name}.len()"),
                Some(_) => format!("{name}.as_ptr(), {name}.len()"),
                None => name.clone(),
            })
            .collect();
        let mut call = format!("unsafe {{ linnet_{name}({}) }}", given.join(", "));
        if answer == "Part" {
            let first = &parameters[0].0;
            let range = "part.start..part.start + part.length";
            call = format!("let part = {call};\n    &{first}[{range}]");
        }
        let call = format!("    {call}");
        let start = format!("\npub fn {name}(");
        let (whole, _) = between(WRAPPER, &start, "\n}").expect("the function");
        assert_eq!(whole.split_once("{\n").expect("a body").1, call);
    }
}

/// The number that a constant of the Rattle source is given.
fn constant(text: &str, name: &str) -> usize {
    let (number, _) =
        between(text, &format!("pub const {name}: usize = "), ";").expect("a constant");
    number.parse().expect("a number")
}

/// The places of an array of quads, and the words of all gates' sets.
fn rooms() -> (usize, usize) {
    assert!(CIRCUIT.contains("pub const QUAD_ROOM: usize = 4 * GATE_ROOM;"));
    assert!(CIRCUIT.contains("pub const NEED_WORDS: usize = base::SET_WORDS * GATE_ROOM;"));
    let gates = constant(CIRCUIT, "GATE_ROOM");
    (4 * gates, constant(BASE, "SET_WORDS") * gates)
}

#[test]
fn all_structs_are_the_same_in_all_texts() {
    for (name, c) in [("Answer", "answer"), ("Shown", "shown"), ("Part", "part")] {
        let open = format!("#[repr(C)]\n#[derive(Clone, Copy)]\npub struct {name} {{");
        // A struct stands in the crate whose operations give it, and in one crate only.
        let mut found = [RATTLE, BASE, FILE_READER]
            .iter()
            .filter_map(|text| between(text, &open, "}"));
        let (fields, _) = found.next().expect("the Rattle struct");
        assert!(found.next().is_none(), "{name} stands twice");
        // The archive's text has names for the places of its arrays.
        let (quads, words) = rooms();
        let fields = fields
            .replace("QUAD_ROOM", &quads.to_string())
            .replace("NEED_WORDS", &words.to_string());
        let fields: Vec<Named> = parts(&fields, ',').iter().map(|part| named(part)).collect();

        let text = without_comments(HEADER);
        let (of_c, _) =
            between(&text, &format!("struct linnet_{c} {{"), "}").expect("the C struct");
        let of_c: Vec<Named> = parts(of_c, ';').iter().map(|part| named_c(part)).collect();
        assert_eq!(of_c, fields);

        let (_, of_rust) = WRAPPER
            .split_once("#[repr(C)]\n")
            .expect("laid out as in C");
        let open = format!("struct {name} {{");
        let (of_rust, _) = between(of_rust, &open, "}").expect("the Rust struct");
        let of_rust: Vec<Named> = parts(of_rust, ',').iter().map(|part| named(part)).collect();
        assert_eq!(of_rust, fields);
    }
    assert_eq!(WRAPPER.matches("#[repr(C)]").count(), 3);
}
