//! The bytes of code and constants in the archive, object by object, as `size` tells them.

use std::process::Command;

/// The object of the library itself starts with this name.
pub const LIBRARY: &str = "cabi";

/// The section of a table that the compiler made of a `match` starts with this name, and goes on with that of the function that asks it.
const TABLE: &str = ".rodata..Lswitch.table.";

/// The function that asks for the kinds of bytes.
const READER: &str = "program::reader::read_command";

/// The bytes of the table of byte kinds. A table of this size in any other function is a second one, too.
const KINDS: u64 = 128;

/// What an object of the archive brings into a program.
pub struct Object {
    pub name: String,
    pub code: u64,
    pub constants: u64,
    /// Those of the constants that are tables which the compiler made of a `match` in the reader of commands, or of their size, one by one.
    pub tables: Vec<u64>,
    /// Bytes that need memory of their own: data and zeros.
    pub memory: u64,
}

/// The objects of the archive that this program is linked with.
pub fn objects() -> Result<Vec<Object>, String> {
    let output = Command::new("size").args(["-A", "-d", header::ARCHIVE]).output();
    let output = output.map_err(|error| format!("size: {error}"))?;
    let mut objects: Vec<Object> = Vec::new();
    for line in String::from_utf8_lossy(&output.stdout).lines() {
        let words: Vec<&str> = line.split_whitespace().collect();
        match words[..] {
            [name, "(ex", ..] => {
                objects.push(Object { name: name.into(), code: 0, constants: 0, tables: Vec::new(), memory: 0 })
            }
            [section, bytes, _] => add(objects.last_mut(), section, bytes.parse().unwrap_or(0)),
            _ => {}
        }
    }
    if objects.is_empty() { Err("size: no object in the archive".into()) } else { Ok(objects) }
}

/// Counts a section where it belongs; what is not loaded counts nowhere.
fn add(object: Option<&mut Object>, section: &str, bytes: u64) {
    let Some(object) = object else {
        return;
    };
    if section.starts_with(".text") {
        object.code += bytes;
    } else if section.starts_with(".rodata") {
        object.constants += bytes;
        if section.strip_prefix(TABLE).is_some_and(|function| bytes == KINDS || function.starts_with(READER)) {
            object.tables.push(bytes);
        }
    } else if section.starts_with(".data") || section.starts_with(".bss") {
        object.memory += bytes;
    }
}

/// The bytes of the table of byte kinds, which is the only table of its size, and the only one made of a `match` in the reader of commands.
pub fn kinds(objects: &[Object]) -> Result<u64, String> {
    let tables: Vec<u64> = objects.iter().flat_map(|object| object.tables.iter().copied()).collect();
    match tables[..] {
        [bytes] => Ok(bytes),
        _ => Err(format!("size: {} tables made of a match, which of them has the byte kinds?", tables.len())),
    }
}
