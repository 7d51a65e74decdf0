//! Payloads, requests, responses, identities and endpoints.

use crate::array_of_fields;
use crate::names::Tag;
use crate::reading::{next, Form, FormReader};
use crate::text::{read_hex, Blob, Text};
use serde::de::{Error, MapAccess, SeqAccess, Visitor};
use serde::{Deserialize, Deserializer, Serialize, Serializer};
use std::fmt;

/// A value of the caller's as the engine carries it.
#[derive(Clone, Debug)]
pub struct Payload {
    /// Which type of value this is. The numbers are the caller's.
    pub kind: u32,
    pub bytes: Blob,
}

array_of_fields! { Payload { kind, bytes } }

/// Headers, their names in lower case, the values of a name together.
#[derive(Clone, Debug)]
pub struct Headers(Vec<(Text, Blob)>);

impl Headers {
    /// Names and values in their order.
    pub fn iter(&self) -> impl Iterator<Item = &(Text, Blob)> {
        self.0.iter()
    }

    // Puts a value behind those of its name.
    fn append(&mut self, name: Text, value: Blob) {
        match self.0.iter().rposition(|(other, _)| *other == name) {
            Some(last) => self.0.insert(last + 1, (name, value)),
            None => self.0.push((name, value)),
        }
    }
}

impl Serialize for Headers {
    fn serialize<S: Serializer>(&self, serializer: S) -> Result<S::Ok, S::Error> {
        self.0.serialize(serializer)
    }
}

impl<'de> Deserialize<'de> for Headers {
    fn deserialize<D: Deserializer<'de>>(deserializer: D) -> Result<Headers, D::Error> {
        deserializer.deserialize_seq(HeadersVisitor)
    }
}

struct HeadersVisitor;

impl<'de> Visitor<'de> for HeadersVisitor {
    type Value = Headers;

    fn expecting(&self, f: &mut fmt::Formatter) -> fmt::Result {
        f.write_str("a list of headers")
    }

    fn visit_seq<A: SeqAccess<'de>>(self, mut items: A) -> Result<Headers, A::Error> {
        let mut headers = Headers(Vec::new());
        while let Some((name, value)) = items.next_element::<(Text, Blob)>()? {
            if !is_header_name(name.as_str()) || !value.as_bytes().iter().all(is_value_byte) {
                return Err(A::Error::custom("no header of HTTP"));
            }
            headers.append(in_lower_case(name), value);
        }
        Ok(headers)
    }
}

fn in_lower_case(name: Text) -> Text {
    if name.as_str().bytes().any(|byte| byte.is_ascii_uppercase()) {
        Text::from(name.as_str().to_ascii_lowercase().as_str())
    } else {
        name
    }
}

fn is_header_name(name: &str) -> bool {
    !name.is_empty() && name.bytes().all(is_token_byte)
}

fn is_token_byte(byte: u8) -> bool {
    byte.is_ascii_alphanumeric() || b"!#$%&'*+-.^_`|~".contains(&byte)
}

fn is_value_byte(byte: &u8) -> bool {
    *byte == b'\t' || (*byte >= 32 && *byte != 127)
}

/// The body of a request or a response.
#[derive(Clone, Debug)]
pub enum Body {
    /// Bytes in memory, which can be sent again.
    Bytes(Blob),
    /// Bytes that can be sent once.
    Once(Blob),
    /// The bytes are gone.
    Taken,
}

impl Serialize for Body {
    fn serialize<S: Serializer>(&self, serializer: S) -> Result<S::Ok, S::Error> {
        match self {
            Body::Bytes(bytes) => bytes.serialize(serializer),
            Body::Once(bytes) => (Tag::Once, bytes).serialize(serializer),
            Body::Taken => serializer.serialize_unit(),
        }
    }
}

impl<'de> Deserialize<'de> for Body {
    fn deserialize<D: Deserializer<'de>>(deserializer: D) -> Result<Body, D::Error> {
        deserializer.deserialize_any(BodyVisitor)
    }
}

struct BodyVisitor;

impl<'de> Visitor<'de> for BodyVisitor {
    type Value = Body;

    fn expecting(&self, f: &mut fmt::Formatter) -> fmt::Result {
        f.write_str("a body")
    }

    fn visit_unit<E: Error>(self) -> Result<Body, E> {
        Ok(Body::Taken)
    }

    fn visit_str<E: Error>(self, text: &str) -> Result<Body, E> {
        Ok(Body::Bytes(Blob::from(text.as_bytes())))
    }

    fn visit_map<A: MapAccess<'de>>(self, members: A) -> Result<Body, A::Error> {
        Ok(Body::Bytes(read_hex(members)?))
    }

    fn visit_seq<A: SeqAccess<'de>>(self, items: A) -> Result<Body, A::Error> {
        FormReader(OnceForm).visit_seq(items)
    }
}

struct OnceForm;

impl<'de> Form<'de> for OnceForm {
    type Value = Body;

    fn tagged<A: SeqAccess<'de>>(self, tag: Tag, mut items: A) -> Result<Body, A::Error> {
        match tag {
            Tag::Once => Ok(Body::Once(next(&mut items)?)),
            _ => Err(A::Error::custom("no body")),
        }
    }
}

/// A request of HTTP.
#[derive(Clone, Debug)]
pub struct HttpRequest {
    pub method: Text,
    pub uri: Text,
    pub headers: Headers,
    pub body: Body,
}

array_of_fields! { HttpRequest { method, uri, headers, body } }

/// A response of HTTP.
#[derive(Clone, Debug)]
pub struct HttpResponse {
    pub status: u16,
    pub headers: Headers,
    pub body: Body,
}

array_of_fields! { HttpResponse { status, headers, body } }

/// Whom a request is signed for.
#[derive(Clone, Debug)]
pub struct Identity {
    pub content: Blob,
    /// The moment, in nanoseconds since the epoch, from which on it is no longer valid.
    pub expiration: Option<u64>,
}

array_of_fields! { Identity { content, expiration } }

/// A header that an endpoint sets on its requests.
#[derive(Clone, Debug)]
pub struct EndpointHeader {
    pub name: Text,
    pub values: Vec<Text>,
}

array_of_fields! { EndpointHeader { name, values } }

/// Where requests go.
#[derive(Clone, Debug)]
pub struct Endpoint {
    pub url: Text,
    pub headers: Vec<EndpointHeader>,
    /// The auth schemes that the endpoint takes, where it says so.
    pub schemes: Option<Vec<Text>>,
}

array_of_fields! { Endpoint { url, headers, schemes } }

#[cfg(test)]
mod tests {
    use super::Headers;

    #[test]
    fn the_values_of_a_name_stand_together_and_names_in_lower_case() {
        let text = r#"[["A","1"],["b","2"],["a","3"]]"#;
        let headers: Headers = serde_json::from_str(text).unwrap();
        let printed = serde_json::to_string(&headers).unwrap();
        assert_eq!(printed, r#"[["a","1"],["a","3"],["b","2"]]"#);
    }
}
