//! Numbers in a line: decimals of any size, and words of four hexadecimal digits.

/// What every number from it on is read as; it lies outside every field.
pub(crate) const LARGE: i32 = 1_000;

/// A decimal without needless zeros, nothing for any other text; from `LARGE` on it is `LARGE`, so
/// that no number wraps.
pub(crate) fn decimal(text: &[u8]) -> Option<i32> {
    if text.is_empty() || (text.len() > 1 && text[0] == b'0') {
        return None;
    }
    let mut value = 0;
    for byte in text {
        if !byte.is_ascii_digit() {
            return None;
        }
        value = (value * 10 + i32::from(byte - b'0')).min(LARGE);
    }
    Some(value)
}

/// A word of exactly four hexadecimal digits, letters capital, nothing for any other text.
pub(crate) fn word(text: &[u8]) -> Option<u16> {
    let digits: &[u8; 4] = text.try_into().ok()?;
    let mut value = 0;
    for byte in digits {
        let digit = match byte {
            b'0'..=b'9' => byte - b'0',
            b'A'..=b'F' => byte - b'A' + 10,
            _ => return None,
        };
        value = (value << 4) | u16::from(digit);
    }
    Some(value)
}

/// Writes a decimal below a thousand without needless zeros.
pub(crate) fn write_decimal(number: u16, text: &mut Vec<u8>) {
    if number >= 100 {
        text.push(b'0' + (number / 100) as u8);
    }
    if number >= 10 {
        text.push(b'0' + (number / 10 % 10) as u8);
    }
    text.push(b'0' + (number % 10) as u8);
}

/// Writes a word as four hexadecimal digits.
pub(crate) fn write_word(word: u16, text: &mut Vec<u8>) {
    let digit = |shift: u32| b"0123456789ABCDEF"[usize::from((word >> shift) & 0xF)];
    text.extend_from_slice(&[12, 8, 4, 0].map(digit));
}
