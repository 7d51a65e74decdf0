//! Scripts of `replay`.

use crate::answer::AnswerTo;
use crate::http::Payload;
use crate::names::StopPoint;
use crate::reading::{next, too_short, unknown, FormReader};
use crate::text::Text;
use crate::world::ScriptAnswer;
use serde::de::{Error, MapAccess, SeqAccess, Visitor};
use serde::{Deserialize, Deserializer};
use std::fmt;

/// What a run is begun with.
#[derive(Clone, Debug)]
pub struct RunHead {
    pub input: Payload,
    /// The most questions that are asked.
    pub fuel: u64,
    pub stop: StopPoint,
    /// The kind of payload that is an output.
    pub output_kind: u64,
    /// The kind of payload that is an error of the operation.
    pub error_kind: u64,
}

/// A run to be replayed.
#[derive(Clone, Debug)]
pub struct Script {
    pub head: RunHead,
    pub answers: Vec<ScriptAnswer>,
}

impl<'de> Deserialize<'de> for ScriptAnswer {
    fn deserialize<D: Deserializer<'de>>(deserializer: D) -> Result<ScriptAnswer, D::Error> {
        deserializer.deserialize_seq(ScriptAnswerVisitor)
    }
}

struct ScriptAnswerVisitor;

impl<'de> Visitor<'de> for ScriptAnswerVisitor {
    type Value = ScriptAnswer;

    fn expecting(&self, f: &mut fmt::Formatter) -> fmt::Result {
        f.write_str("a kind and its answer")
    }

    fn visit_seq<A: SeqAccess<'de>>(self, mut items: A) -> Result<ScriptAnswer, A::Error> {
        let kind = next(&mut items)?;
        let answer = items.next_element_seed(FormReader(AnswerTo(kind)))?;
        let answer = answer.ok_or_else(too_short)?;
        Ok(ScriptAnswer { kind, answer })
    }
}

impl<'de> Deserialize<'de> for Script {
    fn deserialize<D: Deserializer<'de>>(deserializer: D) -> Result<Script, D::Error> {
        deserializer.deserialize_map(ScriptVisitor)
    }
}

// The members that were read. A later one takes the place of an earlier one of its name.
#[derive(Default)]
struct Members {
    input: Option<Payload>,
    fuel: Option<u64>,
    stop: Option<StopPoint>,
    output_kind: Option<u64>,
    error_kind: Option<u64>,
    answers: Option<Vec<ScriptAnswer>>,
}

impl Members {
    fn read<'de, A: MapAccess<'de>>(&mut self, name: &str, map: &mut A) -> Result<(), A::Error> {
        match name {
            "input" => self.input = Some(map.next_value()?),
            "fuel" => self.fuel = Some(map.next_value()?),
            "stop" => self.stop = Some(map.next_value()?),
            "output_kind" => self.output_kind = Some(map.next_value()?),
            "error_kind" => self.error_kind = Some(map.next_value()?),
            "answers" => self.answers = Some(map.next_value()?),
            _ => return Err(unknown(name)),
        }
        Ok(())
    }

    fn into_script<E: Error>(self) -> Result<Script, E> {
        Ok(Script {
            head: RunHead {
                input: self.input.ok_or_else(|| E::missing_field("input"))?,
                fuel: self.fuel.ok_or_else(|| E::missing_field("fuel"))?,
                stop: self.stop.unwrap_or(StopPoint::None),
                output_kind: self
                    .output_kind
                    .ok_or_else(|| E::missing_field("output_kind"))?,
                error_kind: self
                    .error_kind
                    .ok_or_else(|| E::missing_field("error_kind"))?,
            },
            answers: self.answers.ok_or_else(|| E::missing_field("answers"))?,
        })
    }
}

struct ScriptVisitor;

impl<'de> Visitor<'de> for ScriptVisitor {
    type Value = Script;

    fn expecting(&self, f: &mut fmt::Formatter) -> fmt::Result {
        f.write_str("a script")
    }

    fn visit_map<A: MapAccess<'de>>(self, mut map: A) -> Result<Script, A::Error> {
        let mut members = Members::default();
        while let Some(name) = map.next_key::<Text>()? {
            members.read(name.as_str(), &mut map)?;
        }
        members.into_script()
    }
}
