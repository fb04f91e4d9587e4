//! Compares the numbers of every call, its arguments, the records and the
//! constants, in each place that has them. docs/NUMBERS.md is the list of the
//! numbers, include/corridor.h that of all others. Ends with 1 where a place
//! has one too few, one too many or another order.

mod lists;
mod records;

use lists::{Call, Numbers};
use std::collections::{BTreeMap, BTreeSet};
use std::fmt::Debug;
use std::process::ExitCode;

const LIST: &str = "docs/NUMBERS.md";
const HEADER: &str = "include/corridor.h";
const WRAPPER: &str = "bindings/rust/src/lib.rs";
const WRAPPER_TESTS: &str = "bindings/rust/tests/calls.rs";
const PYTHON: &str = "bindings/python/corridor.py";
const PEER: &str = "tests/peer/tally.rs";

/// The enums of the wrapper, each with its constants of the header.
const ENUMS: [(&str, &[&str]); 8] = [
    (
        "BlockMethod",
        &[
            "PARITY",
            "MATRIX",
            "CYCLIC",
            "CYCLIC_ALTERNATIVE",
            "DIAGONAL",
        ],
    ),
    ("FrameMethod", &["FRAME_16", "FRAME_32"]),
    ("CyclicMethod", &["CYCLIC", "CYCLIC_ALTERNATIVE"]),
    ("Degree", &["DEGREE_8", "DEGREE_16", "DEGREE_24"]),
    ("Parity", &["EVEN", "ODD"]),
    ("Code", &["KOI7", "DKOI"]),
    (
        "Shape",
        &[
            "HEADER",
            "TEXT",
            "HEADER_TEXT",
            "CLEAR_TEXT",
            "HEADER_CLEAR_TEXT",
        ],
    ),
    ("EndSign", &["ETX", "ETB", "US"]),
];

/// Constants of Rust code that are the header's.
const LIMITS: [(&str, &str); 5] = [
    (WRAPPER, "CELL"),
    (WRAPPER, "RECORD"),
    ("tests/peer/peer/block.rs", "LONGEST_LINE"),
    ("tests/peer/peer/block.rs", "LONGEST_COUNT"),
    ("tests/peer/peer/sender.rs", "CELL"),
];

#[derive(Default)]
struct Differences {
    compared: usize,
    found: usize,
}

impl Differences {
    /// What one place has, beside what it has to have.
    fn compare<T: PartialEq + Debug>(&mut self, place: &str, what: &str, has: T, due: T) {
        self.compared += 1;
        if has != due {
            self.found += 1;
            println!("numbers: {place}: {what} has {has:?}, not {due:?}");
        }
    }
}

fn main() -> ExitCode {
    let listed = lists::listed(LIST);
    let calls = lists::header(HEADER);
    let mut differences = Differences::default();
    numbers(&mut differences, &listed, &calls);
    arguments(&mut differences, &calls);
    records(&mut differences);
    constants(&mut differences);
    let (compared, calls) = (differences.compared, calls.len());
    let alike = if differences.found == 0 { "yes" } else { "no" };
    println!("numbers: {calls} calls, {compared} comparisons, all alike: {alike}");
    ExitCode::from((differences.found > 0) as u8)
}

/// The numbers of each call, in the order in which it asks.
fn numbers(differences: &mut Differences, listed: &Numbers, calls: &[Call]) {
    let (wrapper, peer) = (lists::wrapper(WRAPPER), lists::peer(PEER));
    for call in calls {
        let none = Vec::new();
        let due = listed.get(&call.name).unwrap_or(&none);
        let with_code = [&[1][..], due].concat();
        let commented = if call.coded { &with_code } else { due };
        differences.compare(HEADER, &call.name, &call.numbers, commented);
        let wrapped = wrapper.get(&call.name);
        differences.compare(WRAPPER, &call.name, wrapped, Some(due));
        if !due.is_empty() {
            let of_peer = peer.get(tallied(&call.name));
            let due = if of_peer == Some(&with_code) {
                &with_code
            } else {
                due
            };
            differences.compare(PEER, &call.name, of_peer, Some(due));
        }
    }
    let known = |name: &String| calls.iter().any(|call| call.name == *name);
    let strange: Vec<&String> = listed.keys().filter(|name| !known(name)).collect();
    differences.compare(LIST, "what is no call of the header", strange, vec![]);
    let wrapped = wrapper.iter().filter(|(_, numbers)| !numbers.is_empty());
    let strange: Vec<&String> = wrapped
        .map(|(name, _)| name)
        .filter(|n| !known(n))
        .collect();
    differences.compare(WRAPPER, "what is no call of the header", strange, vec![]);
    let counted = |name: &&String| calls.iter().any(|call| tallied(&call.name) == **name);
    let strange: Vec<&String> = peer.keys().filter(|name| !counted(name)).collect();
    differences.compare(PEER, "what is no call of the header", strange, vec![]);
}

/// The name under which the peer counts a call.
fn tallied(name: &str) -> &str {
    match name.strip_prefix("join_") {
        Some(_) => "join",
        None => name,
    }
}

/// Result and arguments of each call, as the wrapper and Python declare them;
/// and a test of each in the wrapper's package.
fn arguments(differences: &mut Differences, calls: &[Call]) {
    let due = calls
        .iter()
        .map(|call| (call.name.clone(), call.types.clone()))
        .collect();
    declarations(differences, WRAPPER, lists::foreign(WRAPPER), &due);
    declarations(differences, PYTHON, lists::python(PYTHON), &due);
    let tests = lists::text(WRAPPER_TESTS);
    for call in calls {
        let tested = tests.contains(&format!("#[test]\nfn {}() {{", call.name));
        differences.compare(WRAPPER_TESTS, &call.name, tested, true);
    }
}

/// The fields of each record, in their order.
fn records(differences: &mut Differences) {
    let due = records::header(HEADER);
    declarations(differences, WRAPPER, records::wrapper(WRAPPER), &due);
    declarations(differences, PYTHON, records::python(PYTHON), &due);
}

/// What a place declares, by name.
fn declarations(
    differences: &mut Differences,
    place: &str,
    has: BTreeMap<String, Vec<String>>,
    due: &BTreeMap<String, Vec<String>>,
) {
    let names: BTreeSet<_> = due.keys().chain(has.keys()).collect();
    for name in names {
        differences.compare(place, name, has.get(name), due.get(name));
    }
}

/// The header's constants, and what they are elsewhere.
fn constants(differences: &mut Differences) {
    let defined = lists::defined(HEADER);
    let assigned = lists::assigned(PYTHON);
    for (name, value) in &defined {
        differences.compare(PYTHON, name, assigned.get(name), Some(value));
    }
    for (name, constants) in ENUMS {
        let due: Vec<u64> = constants.iter().map(|name| defined[*name]).collect();
        differences.compare(WRAPPER, name, lists::values(WRAPPER, name), due);
    }
    for (place, name) in LIMITS {
        let has = lists::constant(place, name);
        differences.compare(place, name, has, Some(defined[name]));
    }
}
