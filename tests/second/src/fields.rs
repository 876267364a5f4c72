//! The fields of a line: numbers, and bytes in hex.

pub const MOST_BYTES: usize = 65_536;

/// Decimal digits, one or more, that say no more than `most`.
pub fn number(field: &[u8], most: usize) -> Option<usize> {
    let digits = !field.is_empty() && field.iter().all(u8::is_ascii_digit);
    let text = std::str::from_utf8(field).ok().filter(|_| digits)?;
    text.parse().ok().filter(|&number| number <= most)
}

pub fn word(field: &[u8]) -> Option<u16> {
    number(field, usize::from(u16::MAX)).map(|number| number as u16)
}

pub fn byte(field: &[u8]) -> Option<u8> {
    number(field, usize::from(u8::MAX)).map(|number| number as u8)
}

pub fn mark(field: &[u8]) -> Option<bool> {
    number(field, 1).map(|number| number == 1)
}

pub fn bytes(field: &[u8]) -> Option<Vec<u8>> {
    if field == b"-" {
        return Some(Vec::new());
    }
    if field.is_empty() || field.len() % 2 != 0 || field.len() / 2 > MOST_BYTES {
        return None;
    }
    field.chunks(2).map(|pair| Some(nibble(pair[0])? << 4 | nibble(pair[1])?)).collect()
}

fn nibble(digit: u8) -> Option<u8> {
    match digit {
        b'0'..=b'9' => Some(digit - b'0'),
        b'a'..=b'f' => Some(digit - b'a' + 10),
        _ => None,
    }
}

pub fn hex(bytes: &[u8]) -> String {
    if bytes.is_empty() {
        return "-".to_string();
    }
    bytes.iter().map(|byte| format!("{byte:02x}")).collect()
}
