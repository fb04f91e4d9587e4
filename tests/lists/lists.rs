//! The numbers of each call, from every place that has them; and its
//! arguments, from the places that declare them.

use std::collections::BTreeMap;
use std::fs;

/// Numbers by call, in the order in which the call asks.
pub type Numbers = BTreeMap<String, Vec<u32>>;

/// A call of the header: what its comment says and what it takes.
#[derive(Clone, Debug)]
pub struct Call {
    pub name: String,
    /// The numbers of its comment.
    pub numbers: Vec<u32>,
    /// Whether it takes one of the codes, of which the number 1 is asked.
    pub coded: bool,
    /// The types of the result and of the arguments, as Rust names them.
    pub types: Vec<String>,
}

const CODES: [&str; 6] = ["method", "parity", "code", "shape", "end_sign", "degree"];

pub fn text(path: &str) -> String {
    fs::read_to_string(path).unwrap_or_else(|error| panic!("{path}: {error}"))
}

/// The numbers at the start of a text, separated by commas.
fn leading_numbers(text: &str) -> Vec<u32> {
    let digits = text.split(|c: char| !(c.is_ascii_digit() || c == ',' || c == ' '));
    let list = digits.take(1).flat_map(|list| list.split(','));
    list.filter_map(|number| number.trim().parse().ok())
        .collect()
}

/// The calls that a heading of docs/NUMBERS.md names: `corridor_a`, and
/// `corridor_a_3` to `corridor_a_6`.
fn named(heading: &str) -> Vec<String> {
    let mut calls: Vec<String> = Vec::new();
    let words: Vec<&str> = heading.split('`').collect();
    for (place, word) in words.iter().enumerate().filter(|(place, _)| place % 2 == 1) {
        let Some(call) = word.strip_prefix("corridor_") else {
            continue;
        };
        if let (" to ", Some(first)) = (words[place - 1], calls.last().cloned()) {
            let (stem, from) = first.split_at(first.len() - 1);
            let (from, to) = (from.parse::<u32>(), call[stem.len()..].parse::<u32>());
            let between = from.expect("a digit") + 1..to.expect("a digit");
            calls.extend(between.map(|digit| format!("{stem}{digit}")));
        }
        calls.push(call.to_string());
    }
    calls
}

/// docs/NUMBERS.md: a table for the calls that the heading above it names.
pub fn listed(path: &str) -> Numbers {
    let mut listed = Numbers::new();
    let mut calls = Vec::new();
    for line in text(path).lines() {
        if let Some(heading) = line.strip_prefix("## ") {
            calls = named(heading);
            for call in &calls {
                let first = listed.insert(call.clone(), Vec::new()).is_none();
                assert!(first, "{path} has two tables of {call}");
            }
        } else if let Some(row) = line.strip_prefix("| ") {
            for call in &calls {
                let numbers = listed.get_mut(call).expect("a call of a heading");
                numbers.extend(leading_numbers(row));
            }
        }
    }
    listed
}

/// The numbers of a header's comment: behind "Otherwise", or "Returns 0, or",
/// each at the start of its line.
fn commented(comment: &str) -> Vec<u32> {
    let mut numbers = Vec::new();
    let mut refusals = false;
    for line in comment.lines() {
        let line = line.trim_start().trim_start_matches('*');
        let words = line.trim_start();
        refusals |= words.starts_with("Otherwise") || words.starts_with("Returns 0, or");
        let indented = (2..=5).contains(&(line.len() - words.len()));
        let listed = words.split("  ").count() > 1;
        if refusals && indented && listed {
            numbers.extend(leading_numbers(words.split("  ").next().unwrap_or("")));
        }
    }
    numbers
}

/// A type of the header as Rust names it: "const uint8_t *line" is "*const u8".
fn rust_type(argument: &str) -> String {
    let array = argument.contains('[') || argument.contains('*');
    let constant = argument.starts_with("const ");
    let name = argument.trim_start_matches("const ");
    let name = name.split([' ', '*', '[']).next().unwrap_or(name);
    let name = match name {
        "uint8_t" => "u8",
        "uint16_t" => "u16",
        "uint32_t" => "u32",
        "size_t" => "usize",
        other => other.trim_start_matches("corridor_"),
    };
    match (array, constant) {
        (false, _) => name.to_lowercase(),
        (true, true) => format!("*const {}", name.to_lowercase()),
        (true, false) => format!("*mut {}", name.to_lowercase()),
    }
}

/// A declaration "result corridor_name(arguments)" and the numbers of the
/// comment before it.
fn declared(declaration: &str, numbers: &[u32]) -> Option<Call> {
    let words = declaration.split_whitespace().collect::<Vec<_>>().join(" ");
    let (head, arguments) = words.split_once('(')?;
    let (result, name) = head.rsplit_once(' ')?;
    let name = name.strip_prefix("corridor_")?.to_string();
    let arguments: Vec<&str> = arguments.trim_end_matches(')').split(", ").collect();
    let of_code = |argument: &&str| {
        let name = argument.rsplit(' ').next();
        name.is_some_and(|name| CODES.contains(&name))
    };
    let types = [result].into_iter().chain(arguments.iter().copied());
    Some(Call {
        name,
        numbers: numbers.to_vec(),
        coded: arguments.iter().any(of_code),
        types: types.map(rust_type).collect(),
    })
}

/// include/corridor.h: each declaration with the numbers of the comment before
/// it; "The same" stands for those of the comment before that.
pub fn header(path: &str) -> Vec<Call> {
    let mut calls = Vec::new();
    let mut numbers = Vec::new();
    let source = text(path);
    for piece in source.split("/*").skip(1) {
        let (comment, code) = piece.split_once("*/").expect("an end of the comment");
        if !comment
            .trim_start_matches(['*', ' ', '\n'])
            .starts_with("The same")
        {
            numbers = commented(comment);
        }
        let code: Vec<&str> = code.lines().filter(|line| !line.starts_with('#')).collect();
        let code = code.join("\n");
        calls.extend(code.split(';').filter_map(|one| declared(one, &numbers)));
    }
    calls
}

/// The wrapper: "Refusals: ..." in the comment of a public call. Every public
/// call stands in the answer, also without numbers.
pub fn wrapper(path: &str) -> Numbers {
    let mut found = Numbers::new();
    let mut comment = String::new();
    for line in text(path).lines() {
        if let Some(words) = line.strip_prefix("///") {
            comment.push_str(words);
        } else if let Some(call) = line.strip_prefix("pub fn ") {
            let name = call.split(['(', '<']).next().unwrap_or(call).to_string();
            let refusals = comment.split_once("Refusals: ");
            let numbers = refusals.map_or(Vec::new(), |(_, list)| leading_numbers(list));
            found.insert(name, numbers);
            comment.clear();
        } else if !line.starts_with("#[") {
            comment.clear();
        }
    }
    found
}

/// The wrapper's declarations: result and arguments of each call.
pub fn foreign(path: &str) -> BTreeMap<String, Vec<String>> {
    let source = text(path);
    let (_, declarations) = source
        .split_once("extern \"C\" {")
        .expect("an extern block");
    let mut found = BTreeMap::new();
    for one in declarations.split(';') {
        let words = one.split_whitespace().collect::<Vec<_>>().join(" ");
        let Some((_, call)) = words.split_once("pub fn corridor_") else {
            continue;
        };
        let (name, rest) = call.split_once('(').expect("arguments");
        let (arguments, result) = rest.split_once(')').expect("an end of the arguments");
        let result = result.trim().trim_start_matches("-> ");
        let types = arguments.split(',').filter_map(|one| one.split_once(": "));
        let types = types.map(|(_, name)| name.trim().to_lowercase());
        let all = [result.to_string()].into_iter().chain(types).collect();
        found.insert(name.to_string(), all);
    }
    found
}

/// The peer: the match of `questions` in its tally.
pub fn peer(path: &str) -> Numbers {
    let source = text(path);
    let (_, body) = source.split_once("fn questions(").expect("the questions");
    let (body, _) = body.split_once("\n}").expect("their end");
    let mut found = Numbers::new();
    for arm in body.split(']') {
        let Some((calls, list)) = arm.split_once("=> &[") else {
            continue;
        };
        for call in calls.split("Call::").skip(1) {
            let name = call.trim_end_matches(|c: char| !c.is_alphanumeric());
            found.insert(snake(name), leading_numbers(list.trim_start()));
        }
    }
    found
}

/// "ReadBlock" is "read_block".
fn snake(name: &str) -> String {
    let mut snake = String::new();
    for c in name.chars() {
        if c.is_uppercase() && !snake.is_empty() {
            snake.push('_');
        }
        snake.extend(c.to_lowercase());
    }
    snake
}

/// The Python table: the types of result and arguments, as Rust names them.
pub fn python(path: &str) -> BTreeMap<String, Vec<String>> {
    let source = text(path);
    let (_, table) = source.split_once("\nCALLS = {\n").expect("the table");
    let (table, _) = table.split_once("\n}").expect("its end");
    let mut found = BTreeMap::new();
    for entry in table.split("),") {
        let Some((name, kinds)) = entry.split_once(": (") else {
            continue;
        };
        let types = kinds.split(',').flat_map(|kind| python_types(kind.trim()));
        found.insert(name.trim().trim_matches('"').to_string(), types.collect());
    }
    found
}

/// The types that a name of the Python table stands for; a record has its own,
/// behind CONST where the call only reads it.
fn python_types(kind: &str) -> Vec<String> {
    let types: &[&str] = match kind {
        "*IN" => &["*const u8", "usize"],
        "*OUT" => &["*mut u8", "usize"],
        "U8" | "U16" | "U32" => return vec![kind.to_lowercase()],
        "SIZE" => &["usize"],
        "SIZES" => &["*mut usize"],
        "BYTES" => &["*mut u8"],
        "" => &[],
        record => {
            let (of, name) = match record.strip_prefix("CONST_") {
                Some(name) => ("const", name),
                None => ("mut", record),
            };
            return vec![format!("*{of} {}", name.to_lowercase())];
        }
    };
    types.iter().map(|name| name.to_string()).collect()
}

/// A number as C, Rust or Python writes it.
fn number(words: &str) -> Option<u64> {
    let words = words.trim().trim_end_matches([',', ';']).replace('_', "");
    match words.strip_prefix("0x") {
        Some(digits) => u64::from_str_radix(digits, 16).ok(),
        None => words.parse().ok(),
    }
}

/// The constants of the header, without their prefix.
pub fn defined(path: &str) -> BTreeMap<String, u64> {
    let source = text(path);
    let lines = source.lines();
    let defines = lines.filter_map(|line| line.strip_prefix("#define CORRIDOR_"));
    let pair = |line: &str| {
        let (name, rest) = line.split_once(' ')?;
        let (value, _) = rest.trim_start().split_once(' ').unwrap_or((rest, ""));
        Some((name.to_string(), number(value)?))
    };
    defines.filter_map(pair).collect()
}

/// The constants of the Python module.
pub fn assigned(path: &str) -> BTreeMap<String, u64> {
    let source = text(path);
    let pair = |line: &str| {
        let (name, value) = line.split_once(" = ")?;
        let (value, _) = value.split_once("  #").unwrap_or((value, ""));
        Some((name.to_string(), number(value)?))
    };
    source.lines().filter_map(pair).collect()
}

/// The values of an enum of the wrapper, in their order.
pub fn values(path: &str, name: &str) -> Vec<u64> {
    let source = text(path);
    let start = format!("pub enum {name} {{");
    let (_, body) = source.split_once(&start).expect("the enum");
    let (body, _) = body.split_once("\n}").expect("its end");
    let values = body.lines().filter_map(|line| line.split_once(" = "));
    values.filter_map(|(_, value)| number(value)).collect()
}

/// A constant of Rust code, of the type usize.
pub fn constant(path: &str, name: &str) -> Option<u64> {
    let source = text(path);
    let (_, rest) = source.split_once(&format!("const {name}: usize = "))?;
    number(rest.lines().next()?)
}
