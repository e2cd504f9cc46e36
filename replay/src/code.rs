//! The proved calls, compiled for a page, as the page has them: as text, behind their length and their sum.

/// What is put into every page.
pub const CODE: &[u8] = include_bytes!("../../target/wasm/fugu.wasm");

const DIGITS: &[u8; 64] = b"ABCDEFGHIJKLMNOPQRSTUVWXYZabcdefghijklmnopqrstuvwxyz0123456789+/";

/// The bytes of a row of text, which has 76 signs then.
const ROW: usize = 57;

/// A code as text.
pub fn written(code: &[u8]) -> String {
    let mut text = format!("code {} {:08x}\n", code.len(), crc32(code));
    for row in code.chunks(ROW) {
        text += &base64(row);
        text.push('\n');
    }
    text
}

/// Whether such a text has the length and the sum that it names.
pub fn is_whole(text: &str) -> bool {
    let rows: Option<Vec<Vec<u8>>> = text.lines().skip(1).map(bytes).collect();
    rows.is_some_and(|rows| written(&rows.concat()) == text)
}

/// The sum that zip and PNG have: it tells of any byte that changed.
fn crc32(bytes: &[u8]) -> u32 {
    !bytes.iter().fold(!0, |sum, &byte| {
        (0..8).fold(sum ^ u32::from(byte), |sum, _| {
            (sum >> 1) ^ (0xedb8_8320 & (sum & 1).wrapping_neg())
        })
    })
}

fn base64(bytes: &[u8]) -> String {
    let mut text = String::new();
    for three in bytes.chunks(3) {
        let byte = |place| u32::from(*three.get(place).unwrap_or(&0));
        let bits = byte(0) << 16 | byte(1) << 8 | byte(2);
        for place in 0..4 {
            let digit = DIGITS[(bits >> (18 - 6 * place) & 63) as usize];
            text.push(if place <= three.len() {
                char::from(digit)
            } else {
                '='
            });
        }
    }
    text
}

/// The bytes that stand in a row; none where a sign of it is no digit.
fn bytes(row: &str) -> Option<Vec<u8>> {
    let (mut bits, mut count) = (0_u32, 0);
    let mut bytes = Vec::new();
    for sign in row.trim_end_matches('=').bytes() {
        let digit = DIGITS.iter().position(|&digit| digit == sign)?;
        bits = bits << 6 | digit as u32;
        count += 6;
        if count >= 8 {
            count -= 8;
            bytes.push((bits >> count) as u8);
        }
    }
    Some(bytes)
}

#[cfg(test)]
mod tests {
    use super::{is_whole, written};

    #[test]
    fn as_others_write_it() {
        assert_eq!(written(b"123456789"), "code 9 cbf43926\nMTIzNDU2Nzg5\n");
        assert_eq!(written(b"12345678"), "code 8 9ae0daaf\nMTIzNDU2Nzg=\n");
        assert_eq!(written(b"1234567"), "code 7 5003699f\nMTIzNDU2Nw==\n");
        assert_eq!(written(b""), "code 0 00000000\n");
    }

    #[test]
    fn whole_at_every_length() {
        let bytes: Vec<u8> = (0..=255).collect();
        for length in 0..bytes.len() {
            let text = written(&bytes[..length]);
            assert!(is_whole(&text), "{length}");
            assert!(!is_whole(&text[1..]), "{length}");
            assert!(!is_whole(&text[..text.len() - 1]), "{length}");
        }
    }

    #[test]
    fn any_sign_changed() {
        let text = written(b"the proved calls, compiled for a page, as the page has them");
        for place in 0..text.len() {
            let mut changed = text.clone().into_bytes();
            changed[place] ^= 1;
            assert!(!is_whole(&String::from_utf8(changed).unwrap()), "{place}");
        }
    }
}
