//! Bytes as lower-case hex digits without blanks; a full stop stands for no bytes.

/// The hex form of some bytes.
pub fn to_hex(bytes: &[u8]) -> String {
    if bytes.is_empty() {
        return ".".to_string();
    }
    bytes.iter().map(|byte| format!("{byte:02x}")).collect()
}

/// The bytes of a hex form, or nothing if it isn't one.
pub fn from_hex(text: &str) -> Option<Vec<u8>> {
    if text == "." {
        return Some(Vec::new());
    }
    let digits: Option<Vec<u32>> = text.chars().map(|c| c.to_digit(16)).collect();
    let digits = digits.filter(|digits| digits.len() % 2 == 0)?;
    Some(
        digits
            .chunks(2)
            .map(|pair| (pair[0] * 16 + pair[1]) as u8)
            .collect(),
    )
}
