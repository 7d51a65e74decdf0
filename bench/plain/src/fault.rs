//! Failures, outcomes, and what hooks write.

use crate::http::{HttpRequest, HttpResponse, Payload};
use crate::kind::Hook;
use crate::names::{ErrorKind, Tag};
use crate::read_by_form;
use crate::reading::{next, unknown, Form};
use crate::text::Text;
use serde::de::{Error, SeqAccess};
use serde::{Serialize, Serializer};
use std::rc::Rc;

/// What failed in a connector.
#[derive(Clone, Copy, Debug)]
pub enum ConnectorKind {
    Timeout,
    User,
    Io,
    /// Anything else, with the kind that a retry should count it as.
    Other(Option<ErrorKind>),
}

impl Serialize for ConnectorKind {
    fn serialize<S: Serializer>(&self, serializer: S) -> Result<S::Ok, S::Error> {
        match self {
            ConnectorKind::Timeout => serializer.serialize_str("Timeout"),
            ConnectorKind::User => serializer.serialize_str("User"),
            ConnectorKind::Io => serializer.serialize_str("Io"),
            ConnectorKind::Other(kind) => (Tag::Other, kind).serialize(serializer),
        }
    }
}

struct ConnectorForm;

impl<'de> Form<'de> for ConnectorForm {
    type Value = ConnectorKind;

    fn word<E: Error>(self, word: &str) -> Result<ConnectorKind, E> {
        match word {
            "Timeout" => Ok(ConnectorKind::Timeout),
            "User" => Ok(ConnectorKind::User),
            "Io" => Ok(ConnectorKind::Io),
            _ => Err(unknown(word)),
        }
    }

    fn tagged<A: SeqAccess<'de>>(self, tag: Tag, mut items: A) -> Result<ConnectorKind, A::Error> {
        match tag {
            Tag::Other => Ok(ConnectorKind::Other(next(&mut items)?)),
            _ => Err(unknown(tag.name())),
        }
    }
}

read_by_form! { ConnectorKind, ConnectorForm }

/// What a failure comes from.
#[derive(Clone, Debug)]
pub enum FaultKind {
    /// An interceptor failed at this hook.
    Interceptor(Hook),
    /// The service answered an error of the operation's model.
    Operation(Payload),
    /// The request could not be sent, or no response came.
    Connector(ConnectorKind),
    /// A deadline passed.
    Timeout,
    /// A response came that could not be read.
    Response,
    /// Anything else.
    Other,
}

/// A failure: what it comes from, and a text for people.
#[derive(Clone, Debug)]
pub struct Fault {
    pub kind: FaultKind,
    pub text: Text,
}

impl Serialize for Fault {
    fn serialize<S: Serializer>(&self, serializer: S) -> Result<S::Ok, S::Error> {
        let text = &self.text;
        match &self.kind {
            FaultKind::Interceptor(hook) => ("Interceptor", hook, text).serialize(serializer),
            FaultKind::Operation(payload) => (Tag::Operation, payload, text).serialize(serializer),
            FaultKind::Connector(kind) => (Tag::Connector, kind, text).serialize(serializer),
            FaultKind::Timeout => (Tag::Timeout, text).serialize(serializer),
            FaultKind::Response => (Tag::Response, text).serialize(serializer),
            FaultKind::Other => (Tag::Other, text).serialize(serializer),
        }
    }
}

// A failure of a hook can't be written in a script.
struct FaultForm;

impl<'de> Form<'de> for FaultForm {
    type Value = Fault;

    fn tagged<A: SeqAccess<'de>>(self, tag: Tag, mut items: A) -> Result<Fault, A::Error> {
        let kind = match tag {
            Tag::Operation => FaultKind::Operation(next(&mut items)?),
            Tag::Connector => FaultKind::Connector(next(&mut items)?),
            Tag::Timeout => FaultKind::Timeout,
            Tag::Response => FaultKind::Response,
            Tag::Other => FaultKind::Other,
            _ => return Err(unknown(tag.name())),
        };
        let text = next(&mut items)?;
        Ok(Fault { kind, text })
    }
}

read_by_form! { Fault, FaultForm }

/// What an attempt, and in the end a run, comes to.
#[derive(Clone, Debug)]
pub enum Outcome {
    Output(Payload),
    Failed(Fault),
}

impl Serialize for Outcome {
    fn serialize<S: Serializer>(&self, serializer: S) -> Result<S::Ok, S::Error> {
        match self {
            Outcome::Output(payload) => (Tag::Output, payload).serialize(serializer),
            Outcome::Failed(fault) => (Tag::Failed, fault).serialize(serializer),
        }
    }
}

struct OutcomeForm;

impl<'de> Form<'de> for OutcomeForm {
    type Value = Outcome;

    fn tagged<A: SeqAccess<'de>>(self, tag: Tag, mut items: A) -> Result<Outcome, A::Error> {
        match tag {
            Tag::Output => Ok(Outcome::Output(next(&mut items)?)),
            Tag::Failed => Ok(Outcome::Failed(next(&mut items)?)),
            _ => Err(unknown(tag.name())),
        }
    }
}

read_by_form! { Outcome, OutcomeForm }

/// A part of the run that a hook writes.
#[derive(Clone, Debug)]
pub enum Change {
    Input(Rc<Payload>),
    Request(Rc<HttpRequest>),
    Response(Rc<HttpResponse>),
    Outcome(Rc<Outcome>),
}

impl Serialize for Change {
    fn serialize<S: Serializer>(&self, serializer: S) -> Result<S::Ok, S::Error> {
        match self {
            Change::Input(payload) => (Tag::Input, &**payload).serialize(serializer),
            Change::Request(request) => (Tag::Request, &**request).serialize(serializer),
            Change::Response(response) => (Tag::Response, &**response).serialize(serializer),
            Change::Outcome(outcome) => (Tag::Outcome, &**outcome).serialize(serializer),
        }
    }
}

struct ChangeForm;

impl<'de> Form<'de> for ChangeForm {
    type Value = Change;

    fn tagged<A: SeqAccess<'de>>(self, tag: Tag, mut items: A) -> Result<Change, A::Error> {
        match tag {
            Tag::Input => Ok(Change::Input(Rc::new(next(&mut items)?))),
            Tag::Request => Ok(Change::Request(Rc::new(next(&mut items)?))),
            Tag::Response => Ok(Change::Response(Rc::new(next(&mut items)?))),
            Tag::Outcome => Ok(Change::Outcome(Rc::new(next(&mut items)?))),
            _ => Err(unknown(tag.name())),
        }
    }
}

read_by_form! { Change, ChangeForm }
