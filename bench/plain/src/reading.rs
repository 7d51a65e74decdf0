//! How values are read that are names, or arrays which begin with a tag.

use crate::names::Tag;
use serde::de::{DeserializeSeed, Deserializer, Error, SeqAccess, Visitor};
use serde::Deserialize;
use std::fmt;

/// Reads a string by a table of names.
pub fn read_name<'de, D: Deserializer<'de>, T>(
    deserializer: D,
    named: fn(&str) -> Option<T>,
) -> Result<T, D::Error> {
    deserializer.deserialize_str(NameVisitor(named))
}

struct NameVisitor<T>(fn(&str) -> Option<T>);

impl<'de, T> Visitor<'de> for NameVisitor<T> {
    type Value = T;

    fn expecting(&self, f: &mut fmt::Formatter) -> fmt::Result {
        f.write_str("a name")
    }

    fn visit_str<E: Error>(self, text: &str) -> Result<T, E> {
        (self.0)(text).ok_or_else(|| unknown(text))
    }
}

/// The error of a word that names nothing here.
pub fn unknown<E: Error>(text: &str) -> E {
    E::custom(format_args!("`{text}` names nothing here"))
}

/// The next item of an array, which must be there.
pub fn next<'de, T: Deserialize<'de>, A: SeqAccess<'de>>(items: &mut A) -> Result<T, A::Error> {
    items.next_element()?.ok_or_else(too_short)
}

/// The error of an array that has too few items.
pub fn too_short<E: Error>() -> E {
    E::custom("the array is too short")
}

/// What is written as a word, or as an array that begins with a tag.
pub trait Form<'de>: Sized {
    type Value;

    /// The value that the word is.
    fn word<E: Error>(self, word: &str) -> Result<Self::Value, E> {
        Err(unknown(word))
    }

    /// The value that the array is; its items behind the tag are left.
    fn tagged<A: SeqAccess<'de>>(self, tag: Tag, items: A) -> Result<Self::Value, A::Error>;
}

/// Reads a value by its form.
pub struct FormReader<F>(pub F);

impl<'de, F: Form<'de>> DeserializeSeed<'de> for FormReader<F> {
    type Value = F::Value;

    fn deserialize<D: Deserializer<'de>>(self, deserializer: D) -> Result<F::Value, D::Error> {
        deserializer.deserialize_any(self)
    }
}

impl<'de, F: Form<'de>> Visitor<'de> for FormReader<F> {
    type Value = F::Value;

    fn expecting(&self, f: &mut fmt::Formatter) -> fmt::Result {
        f.write_str("a word or an array that begins with a tag")
    }

    fn visit_str<E: Error>(self, word: &str) -> Result<F::Value, E> {
        self.0.word(word)
    }

    fn visit_seq<A: SeqAccess<'de>>(self, mut items: A) -> Result<F::Value, A::Error> {
        let tag = next(&mut items)?;
        self.0.tagged(tag, items)
    }
}

/// Reads and writes a struct as the array of its fields.
#[macro_export]
macro_rules! array_of_fields {
    ($name:ident { $($field:ident),+ $(,)? }) => {
        impl serde::Serialize for $name {
            fn serialize<S: serde::Serializer>(&self, serializer: S) -> Result<S::Ok, S::Error> {
                ($(&self.$field),+).serialize(serializer)
            }
        }

        impl<'de> serde::Deserialize<'de> for $name {
            fn deserialize<D: serde::Deserializer<'de>>(
                deserializer: D,
            ) -> Result<$name, D::Error> {
                let ($($field),+) = serde::Deserialize::deserialize(deserializer)?;
                Ok($name { $($field),+ })
            }
        }
    };
}

/// Reads a value by its form.
#[macro_export]
macro_rules! read_by_form {
    ($name:ty, $form:expr) => {
        impl<'de> serde::Deserialize<'de> for $name {
            fn deserialize<D: serde::Deserializer<'de>>(
                deserializer: D,
            ) -> Result<$name, D::Error> {
                deserializer.deserialize_any($crate::reading::FormReader($form))
            }
        }
    };
}
