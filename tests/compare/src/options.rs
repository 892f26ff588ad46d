//! What the programs' command lines share.

/// One seed gives the same cases on every machine.
pub const DEFAULT_SEED: u64 = 0x7A19_E261;

/// A decimal number, or a hexadecimal one behind `0x`.
pub fn number(text: &str) -> Option<u64> {
    match text.strip_prefix("0x") {
        Some(digits) => u64::from_str_radix(digits, 16).ok(),
        None => text.parse().ok(),
    }
}
