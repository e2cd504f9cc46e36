//! Bytes as text that can be read, and text as markup.

use std::fmt::Write;

/// The sign that begins an escape, which is itself written as one wherever bytes are escaped.
const ESCAPE: u8 = b'\\';

/// Bytes as printable ASCII: those that can't be shown, the backslash and the special ones as `\xHH`.
pub fn escaped(bytes: &[u8], special: &[u8]) -> String {
    let mut text = String::with_capacity(bytes.len());
    for &byte in bytes {
        if matches!(byte, b' '..=b'~') && byte != ESCAPE && !special.contains(&byte) {
            text.push(char::from(byte));
        } else {
            write!(text, "\\x{byte:02x}").expect("a string takes it");
        }
    }
    text
}

/// The bytes of such a text; none where an escape is not whole.
pub fn unescaped(text: &str) -> Option<Vec<u8>> {
    let mut parts = text.split("\\x");
    let mut bytes = parts.next()?.as_bytes().to_vec();
    for part in parts {
        let (digits, rest) = part.split_at_checked(2)?;
        bytes.push(u8::from_str_radix(digits, 16).ok()?);
        bytes.extend_from_slice(rest.as_bytes());
    }
    Some(bytes)
}

/// A title: what of it is UTF-8 as it is, but for the signs that can't be shown.
pub fn title(bytes: &[u8]) -> String {
    let mut text = String::new();
    for chunk in bytes.utf8_chunks() {
        for sign in chunk.valid().chars() {
            // No XML has the last two.
            if sign.is_control() || matches!(sign, '\\' | '\u{fffe}' | '\u{ffff}') {
                text += &escaped(sign.encode_utf8(&mut [0; 4]).as_bytes(), b"");
            } else {
                text.push(sign);
            }
        }
        text += &escaped(chunk.invalid(), b"");
    }
    text
}

/// A text as it stands between tags.
pub fn marked_up(text: &str) -> String {
    text.replace('&', "&amp;")
        .replace('<', "&lt;")
        .replace('>', "&gt;")
}

/// A number with a comma before each three digits.
pub fn grouped(number: u64) -> String {
    let digits = number.to_string();
    let mut text = String::new();
    for (place, digit) in digits.chars().enumerate() {
        if place > 0 && (digits.len() - place).is_multiple_of(3) {
            text.push(',');
        }
        text.push(digit);
    }
    text
}

/// A decimal number, of digits alone.
pub fn number(text: &str) -> Option<u64> {
    let digits = !text.is_empty() && text.bytes().all(|byte| byte.is_ascii_digit());
    digits.then(|| text.parse().ok()).flatten()
}

#[cfg(test)]
mod tests {
    use super::{escaped, grouped, number, title, unescaped};

    #[test]
    fn every_byte_comes_back() {
        let bytes: Vec<u8> = (0..=255).collect();
        let text = escaped(&bytes, b"<>&|");
        assert!(text.bytes().all(|byte| matches!(byte, b' '..=b'~')));
        assert!(!text.contains(['<', '>', '&', '|']));
        assert_eq!(unescaped(&text), Some(bytes));
        assert_eq!(escaped(b"a\\<\n", b""), "a\\x5c<\\x0a");
    }

    #[test]
    fn an_escape_that_is_not_whole() {
        for text in ["\\x", "\\x5", "\\xg0", "a\\x5", "\\xé"] {
            assert_eq!(unescaped(text), None, "{text}");
        }
    }

    #[test]
    fn titles() {
        assert_eq!(title("Übung 3".as_bytes()), "Übung 3");
        assert_eq!(title(b"a\xff\x00\\"), "a\\xff\\x00\\x5c");
        assert_eq!(
            title("\u{85}\u{ffff}".as_bytes()),
            "\\xc2\\x85\\xef\\xbf\\xbf"
        );
    }

    #[test]
    fn numbers() {
        assert_eq!(
            [0, 999, 1000, 20_000, 1_234_567].map(grouped),
            ["0", "999", "1,000", "20,000", "1,234,567"]
        );
        assert_eq!(number("007"), Some(7));
        for text in ["", "+7", "-7", "7 ", "99999999999999999999"] {
            assert_eq!(number(text), None, "{text}");
        }
    }
}
