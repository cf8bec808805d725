//! The chart as the library carries it, read from its files: the constant table, and the digits that its program writes,
//! to which the gate holds the program.
use std::{fs, path::Path};

/// 02: "Carry the 610 verdicts as one constant table".
pub const ENTRIES: usize = 610;

#[derive(Clone, Copy)]
pub struct Entry {
    /// Of `VERDICTS`, in verdict_table.
    pub table: u64,
    /// Of what verdict_digits writes.
    pub written: u64,
}

/// From the folder of the crates, all of them or why not.
pub fn read(crates: &Path) -> Result<Vec<Entry>, String> {
    let table = entries(&crates.join("verdict_table/src/table.rt"), constant)?;
    let written = entries(&crates.join("verdict_digits/stdout"), digits)?;
    Ok(table.into_iter().zip(written).map(|(table, written)| Entry { table, written }).collect())
}

fn entries(path: &Path, read: fn(&str) -> Option<Vec<u64>>) -> Result<Vec<u64>, String> {
    let text = fs::read_to_string(path).map_err(|error| format!("{}: {error}", path.display()))?;
    let entries = read(&text).filter(|entries| entries.len() == ENTRIES);
    entries.ok_or_else(|| format!("{}: not the chart's {ENTRIES} verdicts", path.display()))
}

/// The bytes of the constant: `\xNN` each, a line's last backslash joining it to the next.
fn constant(text: &str) -> Option<Vec<u64>> {
    let (_, declared) = text.split_once("pub const VERDICTS: [u8; ")?;
    let (_, string) = declared.split_once(" = *b\"")?;
    let (lines, _) = string.split_once("\";")?;
    let joined: String = lines.lines().map(|line| line.trim_start().trim_end_matches('\\')).collect();
    joined.strip_prefix("\\x")?.split("\\x").map(byte).collect()
}

fn byte(hexadecimal: &str) -> Option<u64> {
    u64::from_str_radix(hexadecimal, 16).ok().filter(|_| hexadecimal.len() == 2)
}

/// One line.
fn digits(text: &str) -> Option<Vec<u64>> {
    text.strip_suffix('\n')?.chars().map(|digit| digit.to_digit(10).map(u64::from)).collect()
}
