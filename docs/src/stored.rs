//! A module: reads a stored session, as `docs/sessions` has them.
//!
//! `compare.rs` and `states.rs` include it.

#![forbid(unsafe_code)]

/// The bytes of a file of hex digits in pairs; blanks are ignored, and a
/// comment goes from `#` to the end of its line.
pub fn session(path: &str) -> Result<Vec<u8>, String> {
    let text = std::fs::read_to_string(path).map_err(|error| format!("{path}: {error}"))?;
    let lines = text.lines().map(|line| line.split('#').next().unwrap_or(""));
    let digits: Vec<char> = lines.flat_map(str::chars).filter(|c| !c.is_whitespace()).collect();
    let pairs = digits.chunks(2).map(|pair| match *pair {
        [high, low] => Some(high.to_digit(16)? as u8 * 16 + low.to_digit(16)? as u8),
        _ => None,
    });
    let bytes: Option<Vec<u8>> = pairs.collect();
    bytes.ok_or_else(|| format!("{path}: not pairs of hex digits"))
}
