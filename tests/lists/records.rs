//! The records that a caller keeps, from the places that declare them: by
//! name, their fields as Rust declares them.

use crate::lists::text;
use std::collections::BTreeMap;

pub type Records = BTreeMap<String, Vec<String>>;

/// A field as Rust declares it: of the name "lengths[7]" and the type u16 it is
/// "lengths: [u16; 7]".
fn field(name: &str, of: &str) -> String {
    match name.trim_end_matches(']').split_once('[') {
        Some((name, count)) => format!("{name}: [{of}; {count}]"),
        None => format!("{name}: {of}"),
    }
}

/// The type of C or of ctypes as Rust names it.
fn type_of(name: &str) -> String {
    let bits = name.trim_matches(|c: char| !c.is_ascii_digit());
    format!("u{bits}")
}

/// include/corridor.h: each "typedef struct".
pub fn header(path: &str) -> Records {
    let mut records = Records::new();
    for piece in text(path).split("typedef struct corridor_").skip(1) {
        let (name, rest) = piece.split_once(" {").expect("a record's fields");
        let (body, _) = rest.split_once("\n}").expect("their end");
        // what stands behind the end of a comment, up to the next one
        let code = body.split("/*").map(|part| match part.split_once("*/") {
            Some((_, behind)) => behind,
            None => part,
        });
        let code: String = code.collect();
        let fields = code.split(';').filter_map(|one| one.trim().split_once(' '));
        let fields = fields.map(|(of, name)| field(name, &type_of(of)));
        records.insert(name.to_string(), fields.collect());
    }
    records
}

/// The wrapper: each structure as C lays it out.
pub fn wrapper(path: &str) -> Records {
    let mut records = Records::new();
    for piece in text(path).split("#[repr(C)]\n    pub struct ").skip(1) {
        let (name, rest) = piece.split_once(" {").expect("a record's fields");
        let (body, _) = rest.split_once("\n    }").expect("their end");
        let fields = body
            .lines()
            .filter_map(|line| line.trim().strip_prefix("pub "));
        let fields = fields.map(|line| line.trim_end_matches(',').to_string());
        records.insert(name.to_lowercase(), fields.collect());
    }
    records
}

/// The Python module: each class of ctypes.
pub fn python(path: &str) -> Records {
    let mut records = Records::new();
    for piece in text(path).split("\nclass ").skip(1) {
        let Some((_, rest)) = piece.split_once("    _fields_ = [\n") else {
            continue;
        };
        let name = piece.split('(').next().unwrap_or(piece);
        let (body, _) = rest.split_once("\n    ]").expect("the end of the fields");
        let fields = body.lines().filter_map(|line| {
            let line = line.trim().trim_start_matches("(\"").trim_end_matches("),");
            let (name, of) = line.split_once("\", ctypes.c_uint")?;
            let (bits, count) = of.split_once(" * ").unwrap_or((of, ""));
            let counted = match count {
                "" => name.to_string(),
                _ => format!("{name}[{count}]"),
            };
            Some(field(&counted, &type_of(bits)))
        });
        records.insert(name.to_lowercase(), fields.collect());
    }
    records
}
