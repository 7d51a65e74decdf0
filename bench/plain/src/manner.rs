//! Two manners of reading and writing JSON.

use serde::de::DeserializeOwned;
use serde::Serialize;
use std::io::Write;

/// How JSON is read and written.
#[derive(Clone, Copy, Debug, PartialEq, Eq)]
pub enum Manner {
    /// Straight into and from the program's own types.
    Straight,
    /// By way of trees, `serde_json::Value`.
    ByTrees,
}

impl Manner {
    /// The value that the text is.
    pub fn read<T: DeserializeOwned>(self, text: &[u8]) -> serde_json::Result<T> {
        match self {
            Manner::Straight => serde_json::from_slice(text),
            Manner::ByTrees => serde_json::from_value(serde_json::from_slice(text)?),
        }
    }

    /// Writes the value as compact text.
    pub fn write<W: Write, T: Serialize>(self, out: W, value: &T) -> serde_json::Result<()> {
        match self {
            Manner::Straight => serde_json::to_writer(out, value),
            Manner::ByTrees => serde_json::to_writer(out, &serde_json::to_value(value)?),
        }
    }
}
