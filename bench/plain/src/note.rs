//! Decisions, and what they were made from.

use crate::array_of_fields;
use crate::names::{ErrorKind, Tag};
use crate::read_by_form;
use crate::reading::{next, unknown, Form};
use serde::de::{Error, SeqAccess};
use serde::{Serialize, Serializer};

/// Whether a further attempt is made.
#[derive(Clone, Copy, Debug)]
pub enum Choice {
    Yes,
    No,
    /// No, but the caller pauses for so many nanoseconds.
    NoAfter(u64),
    /// Yes, after so many nanoseconds.
    Delay(u64),
}

impl Serialize for Choice {
    fn serialize<S: Serializer>(&self, serializer: S) -> Result<S::Ok, S::Error> {
        match self {
            Choice::Yes => serializer.serialize_str("Yes"),
            Choice::No => serializer.serialize_str("No"),
            Choice::NoAfter(nanos) => (Tag::NoAfter, nanos).serialize(serializer),
            Choice::Delay(nanos) => (Tag::Delay, nanos).serialize(serializer),
        }
    }
}

/// The form of a choice.
pub struct ChoiceForm;

impl<'de> Form<'de> for ChoiceForm {
    type Value = Choice;

    fn word<E: Error>(self, word: &str) -> Result<Choice, E> {
        match word {
            "Yes" => Ok(Choice::Yes),
            "No" => Ok(Choice::No),
            _ => Err(unknown(word)),
        }
    }

    fn tagged<A: SeqAccess<'de>>(self, tag: Tag, mut items: A) -> Result<Choice, A::Error> {
        match tag {
            Tag::NoAfter => Ok(Choice::NoAfter(next(&mut items)?)),
            Tag::Delay => Ok(Choice::Delay(next(&mut items)?)),
            _ => Err(unknown(tag.name())),
        }
    }
}

read_by_form! { Choice, ChoiceForm }

/// What a retry classifier says.
#[derive(Clone, Copy, Debug)]
pub enum RetryAction {
    NoActionIndicated,
    RetryIndicated {
        kind: ErrorKind,
        /// How long the service asks to wait, in nanoseconds.
        retry_after: Option<u64>,
    },
    RetryForbidden,
}

impl Serialize for RetryAction {
    fn serialize<S: Serializer>(&self, serializer: S) -> Result<S::Ok, S::Error> {
        match self {
            RetryAction::NoActionIndicated => serializer.serialize_str("NoActionIndicated"),
            RetryAction::RetryIndicated { kind, retry_after } => {
                (Tag::RetryIndicated, kind, retry_after).serialize(serializer)
            }
            RetryAction::RetryForbidden => serializer.serialize_str("RetryForbidden"),
        }
    }
}

struct RetryActionForm;

impl<'de> Form<'de> for RetryActionForm {
    type Value = RetryAction;

    fn word<E: Error>(self, word: &str) -> Result<RetryAction, E> {
        match word {
            "NoActionIndicated" => Ok(RetryAction::NoActionIndicated),
            "RetryForbidden" => Ok(RetryAction::RetryForbidden),
            _ => Err(unknown(word)),
        }
    }

    fn tagged<A: SeqAccess<'de>>(self, tag: Tag, mut items: A) -> Result<RetryAction, A::Error> {
        match tag {
            Tag::RetryIndicated => Ok(RetryAction::RetryIndicated {
                kind: next(&mut items)?,
                retry_after: next(&mut items)?,
            }),
            _ => Err(unknown(tag.name())),
        }
    }
}

read_by_form! { RetryAction, RetryActionForm }

/// Why a retry strategy chose so.
#[derive(Clone, Copy, Debug)]
pub enum Reason {
    NotIndicated,
    OutOfAttempts,
    /// The bucket didn't hold this cost, in tokens.
    NoQuota(u32),
    /// The bucket granted this amount, in tokens.
    Granted(u32),
}

impl Serialize for Reason {
    fn serialize<S: Serializer>(&self, serializer: S) -> Result<S::Ok, S::Error> {
        match self {
            Reason::NotIndicated => serializer.serialize_str("NotIndicated"),
            Reason::OutOfAttempts => serializer.serialize_str("OutOfAttempts"),
            Reason::NoQuota(cost) => (Tag::NoQuota, cost).serialize(serializer),
            Reason::Granted(amount) => (Tag::Granted, amount).serialize(serializer),
        }
    }
}

struct ReasonForm;

impl<'de> Form<'de> for ReasonForm {
    type Value = Reason;

    fn word<E: Error>(self, word: &str) -> Result<Reason, E> {
        match word {
            "NotIndicated" => Ok(Reason::NotIndicated),
            "OutOfAttempts" => Ok(Reason::OutOfAttempts),
            _ => Err(unknown(word)),
        }
    }

    fn tagged<A: SeqAccess<'de>>(self, tag: Tag, mut items: A) -> Result<Reason, A::Error> {
        match tag {
            Tag::NoQuota => Ok(Reason::NoQuota(next(&mut items)?)),
            Tag::Granted => Ok(Reason::Granted(next(&mut items)?)),
            _ => Err(unknown(tag.name())),
        }
    }
}

read_by_form! { Reason, ReasonForm }

/// The sums of a token bucket, in tokens.
#[derive(Clone, Copy, Debug)]
pub struct Sums {
    pub capacity: u64,
    pub granted: u64,
    pub available: u64,
    pub held: u64,
    pub forgotten: u64,
}

array_of_fields! { Sums { capacity, granted, available, held, forgotten } }

/// What a decision was made from.
#[derive(Clone, Copy, Debug)]
pub struct DecideNote {
    pub verdict: RetryAction,
    /// In nanoseconds, where the client has a clock.
    pub moment: Option<u64>,
    /// The random number that the backoff was drawn with.
    pub word: u64,
    pub reason: Reason,
    pub sums: Option<Sums>,
}

array_of_fields! { DecideNote { verdict, moment, word, reason, sums } }
