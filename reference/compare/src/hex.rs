//! Octets and numbers as hex digits.

use std::fmt::Write;

/// `''` for no octets, so that a shell passes it on.
pub fn write(octets: &[u8]) -> String {
    if octets.is_empty() {
        return "''".into();
    }
    octets.iter().fold(String::new(), |mut digits, octet| {
        write!(digits, "{octet:02x}").expect("a string takes all");
        digits
    })
}

pub fn read(digits: &str) -> Result<Vec<u8>, String> {
    let bad = || format!("{digits:?} is not octets in hex");
    let value = |digit: &u8| char::from(*digit).to_digit(16).ok_or_else(bad);
    let pairs = digits.as_bytes().chunks_exact(2);
    if !pairs.remainder().is_empty() {
        return Err(bad());
    }
    pairs
        .map(|pair| Ok((value(&pair[0])? << 4 | value(&pair[1])?) as u8))
        .collect()
}

pub fn write_number(number: usize) -> String {
    format!("{number:#x}")
}

/// A number, with or without `0x` before it.
pub fn read_number(digits: &str) -> Result<usize, String> {
    let bad = |_| format!("{digits} is not in hex");
    usize::from_str_radix(digits.trim_start_matches("0x"), 16).map_err(bad)
}
