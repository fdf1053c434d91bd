//! Bytes and results as antt writes them.

#![allow(dead_code)]

use penthluk_reference::refusal::Refusal;

/// The bytes as a quoted text, if they are of those that the texts of this project are made of.
pub fn literal(bytes: &[u8]) -> Option<String> {
    let plain = |byte: &u8| byte.is_ascii_alphanumeric() || b"\t\n\r ".contains(byte);
    bytes.iter().all(plain).then(|| quoted(bytes))
}

/// The bytes as a quoted text, a character with the same number for each.
pub fn quoted(bytes: &[u8]) -> String {
    let text: String = bytes.iter().map(|&byte| quoted_byte(byte)).collect();
    format!("\"{text}\"")
}

fn quoted_byte(byte: u8) -> String {
    match byte {
        b'\t' => "\\t".to_string(),
        b'\n' => "\\n".to_string(),
        b'\r' => "\\r".to_string(),
        b' ' | b'0'..=b'9' | b'a'..=b'z' | b'A'..=b'Z' => char::from(byte).to_string(),
        _ => format!("\\u{{{byte:x}}}"),
    }
}

/// A result, or number and place of a refusal.
pub fn result<T>(result: Result<T, Refusal>, shown: impl Fn(T) -> String) -> String {
    match result {
        Ok(value) => format!("(ok {})", shown(value)),
        Err(Refusal { number, place }) => format!("(refused {number} {place})"),
    }
}

/// A lent buffer of this length.
pub fn lent(length: usize) -> Vec<u8> {
    (b'a'..=b'z').cycle().take(length).collect()
}
