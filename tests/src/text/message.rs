//! Messages and data in a text: hexadecimal digits or quoted text.

use super::line::Word;
use crate::digits::digits;

/// The bytes of an even number of hexadecimal digits.
pub fn bytes(what: &str, digits: &str) -> Result<Vec<u8>, String> {
    let error = || format!("{what} must be an even number of hexadecimal digits or quoted text: `{digits}`");
    if digits.is_empty() || !digits.len().is_multiple_of(2) {
        return Err(error());
    }
    let values: Option<Vec<u8>> =
        digits.chars().map(|digit| digit.to_digit(16).and_then(|value| u8::try_from(value).ok())).collect();
    let values = values.ok_or_else(error)?;
    Ok(values.chunks(2).map(|pair| pair.iter().fold(0, |byte, value| byte << 4 | value)).collect())
}

fn is_quotable(byte: u8) -> bool {
    (byte == b' ' || byte.is_ascii_graphic()) && byte != b'"'
}

/// The bytes of digits or of quoted text, filled with zeros on the right, and how many they were.
fn field(what: &str, word: Word) -> Result<([u8; 16], u32), String> {
    let bytes = match word {
        Word::Plain(digits) => bytes(what, &digits)?,
        Word::Quoted(text) if text.bytes().all(is_quotable) => text.into_bytes(),
        Word::Quoted(_) => return Err(format!("{what} has characters that are not printable ASCII")),
    };
    let mut field = [0; 16];
    let front = field.get_mut(..bytes.len()).ok_or_else(|| format!("{what} is longer than 16 bytes"))?;
    front.copy_from_slice(&bytes);
    Ok((field, bytes.len() as u32))
}

/// A message has at least one byte.
pub fn read(word: Word) -> Result<[u8; 16], String> {
    match field("the message", word)? {
        (_, 0) => Err("the message is empty".to_string()),
        (message, _) => Ok(message),
    }
}

/// The data of PUTPOOL and the caller's length. Zeros at its end count, and it may have no byte.
pub fn read_data(word: Word) -> Result<([u8; 16], u32), String> {
    field("the data", word)
}

pub fn write(message: &[u8; 16]) -> String {
    let length = message.iter().rposition(|byte| *byte != 0).map_or(1, |last| last + 1);
    write_data(&message[..length])
}

/// Text in quotes where that is shorter than digits, that is from three characters on; and no byte at all, for which
/// there are no digits.
pub fn write_data(data: &[u8]) -> String {
    let is_shorter = data.len() > 2 || data.is_empty();
    if is_shorter && data.iter().all(|byte| is_quotable(*byte)) {
        let text: String = data.iter().map(|byte| char::from(*byte)).collect();
        format!("\"{text}\"")
    } else {
        digits(data)
    }
}
