//! Names of files as text: whatever bytes a name has, it breaks no line and moves no cursor.

use std::path::Path;

/// The name with control characters, and bytes that are no text, written as `\xNN`, and `\` as `\\` where that happens.
pub fn shown(path: &Path) -> String {
    let bytes = path.as_os_str().as_encoded_bytes();
    let plain = |letter: char| !letter.is_control() && !is_turning(letter);
    match std::str::from_utf8(bytes) {
        Ok(text) if text.chars().all(plain) => text.to_string(),
        _ => escaped(bytes, plain),
    }
}

fn escaped(bytes: &[u8], plain: impl Fn(char) -> bool) -> String {
    let mut out = String::new();
    let hex = |out: &mut String, bytes: &[u8]| {
        bytes
            .iter()
            .for_each(|byte| out.push_str(&format!("\\x{byte:02x}")))
    };
    for chunk in bytes.utf8_chunks() {
        for letter in chunk.valid().chars() {
            match letter {
                '\\' => out.push_str("\\\\"),
                letter if plain(letter) => out.push(letter),
                letter => hex(&mut out, letter.encode_utf8(&mut [0; 4]).as_bytes()),
            }
        }
        hex(&mut out, chunk.invalid());
    }
    out
}

/// Letters that turn the direction of what follows, or break a line without being control characters.
fn is_turning(letter: char) -> bool {
    matches!(letter, '\u{2028}'..='\u{202e}' | '\u{2066}'..='\u{2069}')
}

/// The name as a word of a shell.
pub fn shell(path: &Path) -> String {
    let text = shown(path);
    let plain = |byte: u8| byte.is_ascii_alphanumeric() || b"/._-+,:@%".contains(&byte);
    if !text.is_empty() && text.bytes().all(plain) && !text.starts_with('-') {
        return text;
    }
    let text = if text.starts_with('-') {
        format!("./{text}")
    } else {
        text
    };
    format!("'{}'", text.replace('\'', "'\\''"))
}

/// A JSON string of any bytes. A byte that is no text becomes the lone surrogate U+DC00 + byte, as Python reads and writes such names.
pub fn json(bytes: &[u8]) -> String {
    let mut out = String::from("\"");
    for chunk in bytes.utf8_chunks() {
        for letter in chunk.valid().chars() {
            match letter {
                '"' | '\\' => out.extend(['\\', letter]),
                letter if letter < ' ' || letter == '\u{7f}' || is_turning(letter) => {
                    out.push_str(&format!("\\u{:04x}", letter as u32))
                }
                letter => out.push(letter),
            }
        }
        for byte in chunk.invalid() {
            out.push_str(&format!("\\udc{byte:02x}"));
        }
    }
    out.push('"');
    out
}
