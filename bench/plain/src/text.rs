//! Texts and blobs, which are shared.

use serde::de::{Error, MapAccess, Visitor};
use serde::{Deserialize, Deserializer, Serialize, Serializer};
use std::fmt;
use std::fmt::Write;
use std::rc::Rc;

/// A text that is shared.
#[derive(Clone, Debug, PartialEq, Eq)]
pub struct Text(Rc<str>);

impl Text {
    pub fn as_str(&self) -> &str {
        &self.0
    }
}

impl From<&str> for Text {
    fn from(text: &str) -> Text {
        Text(Rc::from(text))
    }
}

impl Serialize for Text {
    fn serialize<S: Serializer>(&self, serializer: S) -> Result<S::Ok, S::Error> {
        serializer.serialize_str(&self.0)
    }
}

impl<'de> Deserialize<'de> for Text {
    fn deserialize<D: Deserializer<'de>>(deserializer: D) -> Result<Text, D::Error> {
        deserializer.deserialize_str(TextVisitor)
    }
}

struct TextVisitor;

impl Visitor<'_> for TextVisitor {
    type Value = Text;

    fn expecting(&self, f: &mut fmt::Formatter) -> fmt::Result {
        f.write_str("a text")
    }

    fn visit_str<E: Error>(self, text: &str) -> Result<Text, E> {
        Ok(Text::from(text))
    }
}

/// Bytes that are shared.
#[derive(Clone, Debug, PartialEq, Eq)]
pub struct Blob(Rc<[u8]>);

impl Blob {
    pub fn as_bytes(&self) -> &[u8] {
        &self.0
    }
}

impl From<&[u8]> for Blob {
    fn from(bytes: &[u8]) -> Blob {
        Blob(Rc::from(bytes))
    }
}

impl Serialize for Blob {
    fn serialize<S: Serializer>(&self, serializer: S) -> Result<S::Ok, S::Error> {
        match std::str::from_utf8(&self.0) {
            Ok(text) if text.bytes().all(is_shown) => serializer.serialize_str(text),
            _ => serializer.collect_map([("hex", hex_of(&self.0))]),
        }
    }
}

// Whether the byte stands for itself in a printed blob.
fn is_shown(byte: u8) -> bool {
    matches!(byte, 32..=126 | b'\t' | b'\n' | b'\r')
}

fn hex_of(bytes: &[u8]) -> String {
    let mut digits = String::with_capacity(2 * bytes.len());
    for byte in bytes {
        let _ = write!(digits, "{byte:02x}");
    }
    digits
}

impl<'de> Deserialize<'de> for Blob {
    fn deserialize<D: Deserializer<'de>>(deserializer: D) -> Result<Blob, D::Error> {
        deserializer.deserialize_any(BlobVisitor)
    }
}

struct BlobVisitor;

impl<'de> Visitor<'de> for BlobVisitor {
    type Value = Blob;

    fn expecting(&self, f: &mut fmt::Formatter) -> fmt::Result {
        f.write_str("a text, or an object with bytes in hex")
    }

    fn visit_str<E: Error>(self, text: &str) -> Result<Blob, E> {
        Ok(Blob::from(text.as_bytes()))
    }

    fn visit_map<A: MapAccess<'de>>(self, members: A) -> Result<Blob, A::Error> {
        read_hex(members)
    }
}

/// The bytes of an object with the one member `hex`.
pub fn read_hex<'de, A: MapAccess<'de>>(mut members: A) -> Result<Blob, A::Error> {
    let mut bytes = None;
    while let Some((name, digits)) = members.next_entry::<Text, Text>()? {
        if name.as_str() != "hex" {
            return Err(A::Error::custom("bytes have the one member hex"));
        }
        bytes = Some(digits);
    }
    let digits = bytes.ok_or_else(|| A::Error::missing_field("hex"))?;
    match bytes_of(digits.as_str().as_bytes()) {
        Some(bytes) => Ok(Blob::from(bytes.as_slice())),
        None => Err(A::Error::custom("the digits are no bytes in hex")),
    }
}

fn bytes_of(digits: &[u8]) -> Option<Vec<u8>> {
    let pairs = digits.chunks_exact(2);
    if !pairs.remainder().is_empty() {
        return None;
    }
    pairs
        .map(|pair| Some(16 * digit(pair[0])? + digit(pair[1])?))
        .collect()
}

// A digit of hex, its letters in lower case.
fn digit(character: u8) -> Option<u8> {
    match character {
        b'0'..=b'9' => Some(character - b'0'),
        b'a'..=b'f' => Some(character - b'a' + 10),
        _ => None,
    }
}

#[cfg(test)]
mod tests {
    use super::Blob;

    #[test]
    fn bytes_that_cannot_be_shown_are_written_in_hex() {
        let blob = Blob::from([0, 65, 255].as_slice());
        let text = serde_json::to_string(&blob).unwrap();
        assert_eq!(text, r#"{"hex":"0041ff"}"#);
        assert_eq!(serde_json::from_str::<Blob>(&text).unwrap(), blob);
    }

    #[test]
    fn hex_in_capitals_or_of_half_a_byte_is_refused() {
        assert!(serde_json::from_str::<Blob>(r#"{"hex":"FF"}"#).is_err());
        assert!(serde_json::from_str::<Blob>(r#"{"hex":"0"}"#).is_err());
    }
}
