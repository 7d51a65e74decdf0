//! What a world answers.

use crate::fault::{Change, ConnectorKind, Outcome};
use crate::http::{Endpoint, HttpRequest, HttpResponse, Identity};
use crate::kind::{Hook, Kind, Role};
use crate::names::{ChooseNote, Tag};
use crate::note::{Choice, ChoiceForm, DecideNote};
use crate::reading::{next, unknown, Form};
use crate::setting::Layer;
use crate::text::{Blob, Text};
use serde::de::{Error, SeqAccess};
use serde::{Serialize, Serializer};
use std::rc::Rc;

/// The auth scheme and the identity that a request is signed with.
#[derive(Clone, Debug)]
pub struct Chosen {
    pub scheme: Text,
    pub identity: Rc<Identity>,
    /// The endpoint, where it was resolved already.
    pub endpoint: Option<Rc<Endpoint>>,
    pub settings: Layer,
    pub note: Option<ChooseNote>,
}

/// What the interceptors of a hook did.
#[derive(Clone, Debug)]
pub struct HookAnswer {
    pub change: Option<Change>,
    pub settings: Layer,
    /// Why the hook failed, where it did.
    pub failure: Option<Text>,
}

/// An answer. Handles are shared, so that a copy is cheap.
#[derive(Clone, Debug)]
pub enum Answer {
    Pending,
    Absent,
    Failed(Text),
    ConnectorFailed(ConnectorKind, Text),
    Layer(Rc<Layer>),
    /// A hook did nothing.
    Done,
    Hooked(Rc<HookAnswer>),
    Request(Rc<HttpRequest>),
    Loaded(Blob),
    Go,
    No,
    /// In nanoseconds.
    Delay(u64),
    Started,
    Ready,
    Chosen(Rc<Chosen>),
    Endpoint(Rc<Endpoint>),
    Response(Rc<HttpResponse>),
    NotStreaming,
    Outcome(Rc<Outcome>),
    Read(Blob),
    Decided(Choice, Option<Rc<DecideNote>>),
    Abandoned,
    Parked,
}

impl Answer {
    /// Whether the answer to a question of this kind sets a failure, where the attempt of this
    /// number stands, 0 before the first.
    pub fn fails(&self, kind: Kind, attempt: u64) -> bool {
        match self {
            Answer::Absent => !matches!(
                kind,
                Kind::Start(Role::Operation | Role::Attempt | Role::LongPoll)
            ),
            Answer::Failed(_) | Answer::ConnectorFailed(..) => true,
            Answer::No => attempt == 0,
            Answer::Hooked(answer) => answer.fails(kind),
            Answer::Outcome(outcome) => matches!(**outcome, Outcome::Failed(_)),
            Answer::Ready => matches!(kind, Kind::Wait(Role::Operation | Role::Attempt)),
            _ => false,
        }
    }
}

impl HookAnswer {
    // A hook fails by its text, and a completion hook also by the failure that it writes.
    fn fails(&self, kind: Kind) -> bool {
        let writes_failure = || match &self.change {
            Some(Change::Outcome(outcome)) => matches!(**outcome, Outcome::Failed(_)),
            _ => false,
        };
        self.failure.is_some()
            || matches!(kind, Kind::Hook(hook) if hook.writes_outcome()) && writes_failure()
    }

    fn does_nothing(&self) -> bool {
        self.change.is_none() && self.settings.is_empty() && self.failure.is_none()
    }
}

impl Hook {
    pub fn writes_outcome(self) -> bool {
        matches!(
            self,
            Hook::ModifyBeforeAttemptCompletion | Hook::ModifyBeforeCompletion
        )
    }
}

impl Serialize for Chosen {
    fn serialize<S: Serializer>(&self, serializer: S) -> Result<S::Ok, S::Error> {
        let endpoint = self.endpoint.as_deref();
        (
            Tag::Chosen,
            &self.scheme,
            &*self.identity,
            endpoint,
            &self.settings,
            self.note,
        )
            .serialize(serializer)
    }
}

impl Serialize for HookAnswer {
    fn serialize<S: Serializer>(&self, serializer: S) -> Result<S::Ok, S::Error> {
        (Tag::Hook, &self.change, &self.settings, &self.failure).serialize(serializer)
    }
}

impl Serialize for Answer {
    fn serialize<S: Serializer>(&self, serializer: S) -> Result<S::Ok, S::Error> {
        match self {
            Answer::Pending => serializer.serialize_str("Pending"),
            Answer::Absent => serializer.serialize_str("Absent"),
            Answer::Failed(text) => (Tag::Failed, text).serialize(serializer),
            Answer::ConnectorFailed(kind, text) => (Tag::Failed, kind, text).serialize(serializer),
            Answer::Layer(layer) => (Tag::Layer, &**layer).serialize(serializer),
            Answer::Done => serializer.serialize_str("Done"),
            Answer::Hooked(answer) => answer.serialize(serializer),
            Answer::Request(request) => (Tag::Request, &**request).serialize(serializer),
            Answer::Loaded(bytes) => (Tag::Loaded, bytes).serialize(serializer),
            Answer::Go => serializer.serialize_str("Go"),
            Answer::No => serializer.serialize_str("No"),
            Answer::Delay(nanos) => (Tag::Delay, nanos).serialize(serializer),
            Answer::Started => serializer.serialize_str("Started"),
            Answer::Ready => serializer.serialize_str("Ready"),
            Answer::Chosen(chosen) => chosen.serialize(serializer),
            Answer::Endpoint(endpoint) => (Tag::Endpoint, &**endpoint).serialize(serializer),
            Answer::Response(response) => (Tag::Response, &**response).serialize(serializer),
            Answer::NotStreaming => serializer.serialize_str("NotStreaming"),
            Answer::Outcome(outcome) => (Tag::Outcome, &**outcome).serialize(serializer),
            Answer::Read(bytes) => (Tag::Read, bytes).serialize(serializer),
            Answer::Decided(choice, None) => choice.serialize(serializer),
            Answer::Decided(choice, Some(note)) => {
                (Tag::Noted, choice, &**note).serialize(serializer)
            }
            Answer::Abandoned => serializer.serialize_str("Abandoned"),
            Answer::Parked => serializer.serialize_str("Parked"),
        }
    }
}

/// Reads an answer to a question of this kind. One that doesn't fit the kind is refused.
pub struct AnswerTo(pub Kind);

impl<'de> Form<'de> for AnswerTo {
    type Value = Answer;

    fn word<E: Error>(self, word: &str) -> Result<Answer, E> {
        match (self.0, word) {
            (Kind::Hook(_), "Done") => Ok(Answer::Done),
            (Kind::Initial, "Go") => Ok(Answer::Go),
            (Kind::Initial, "No") => Ok(Answer::No),
            (Kind::Start(_), "Started") => Ok(Answer::Started),
            (Kind::Wait(_), "Ready") => Ok(Answer::Ready),
            (Kind::Stream, "NotStreaming") => Ok(Answer::NotStreaming),
            (Kind::Abandon(_), "Abandoned") => Ok(Answer::Abandoned),
            (Kind::Park, "Parked") => Ok(Answer::Parked),
            (kind, "Pending") if kind.can_wait() => Ok(Answer::Pending),
            (kind, "Absent") if kind.can_be_absent() => Ok(Answer::Absent),
            (Kind::Decide, _) => Ok(Answer::Decided(ChoiceForm.word(word)?, None)),
            _ => Err(unknown(word)),
        }
    }

    fn tagged<A: SeqAccess<'de>>(self, tag: Tag, mut items: A) -> Result<Answer, A::Error> {
        let items = &mut items;
        Ok(match (self.0, tag) {
            (Kind::Configure(_), Tag::Layer) => Answer::Layer(Rc::new(next(items)?)),
            (Kind::Hook(_), Tag::Hook) => Answer::Hooked(Rc::new(read_hook_answer(items)?)),
            (Kind::Serialize | Kind::Apply | Kind::Sign, Tag::Request) => {
                Answer::Request(Rc::new(next(items)?))
            }
            (Kind::Load, Tag::Loaded) => Answer::Loaded(next(items)?),
            (Kind::Initial, Tag::Delay) => Answer::Delay(next(items)?),
            (Kind::Choose, Tag::Chosen) => Answer::Chosen(Rc::new(read_chosen(items)?)),
            (Kind::Endpoint, Tag::Endpoint) => Answer::Endpoint(Rc::new(next(items)?)),
            (Kind::Transmit, Tag::Response) => Answer::Response(Rc::new(next(items)?)),
            (Kind::Transmit, Tag::Failed) => Answer::ConnectorFailed(next(items)?, next(items)?),
            (Kind::Stream | Kind::Deserialize, Tag::Outcome) => {
                Answer::Outcome(Rc::new(next(items)?))
            }
            (Kind::Body, Tag::Read) => Answer::Read(next(items)?),
            (Kind::Decide, Tag::Noted) => {
                Answer::Decided(next(items)?, Some(Rc::new(next(items)?)))
            }
            (kind, Tag::Failed) if kind.can_fail() => Answer::Failed(next(items)?),
            (Kind::Decide, _) => Answer::Decided(ChoiceForm.tagged(tag, items)?, None),
            _ => return Err(unknown(tag.name())),
        })
    }
}

// What stands behind the tag of a choice.
fn read_chosen<'de, A: SeqAccess<'de>>(items: &mut A) -> Result<Chosen, A::Error> {
    Ok(Chosen {
        scheme: next(items)?,
        identity: Rc::new(next(items)?),
        endpoint: next::<Option<Endpoint>, A>(items)?.map(Rc::new),
        settings: next(items)?,
        note: next(items)?,
    })
}

// What stands behind the tag of a hook's answer. One that does nothing is written `Done`.
fn read_hook_answer<'de, A: SeqAccess<'de>>(items: &mut A) -> Result<HookAnswer, A::Error> {
    let answer = HookAnswer {
        change: next(items)?,
        settings: next(items)?,
        failure: next(items)?,
    };
    if answer.does_nothing() {
        return Err(A::Error::custom("this hook did nothing"));
    }
    Ok(answer)
}

impl Kind {
    fn can_wait(self) -> bool {
        matches!(
            self,
            Kind::Load
                | Kind::Wait(_)
                | Kind::Choose
                | Kind::Endpoint
                | Kind::Transmit
                | Kind::Body
        )
    }

    fn can_be_absent(self) -> bool {
        !matches!(
            self,
            Kind::Hook(_) | Kind::Wait(_) | Kind::Abandon(_) | Kind::Park
        )
    }

    // Whether it can fail with a text alone.
    fn can_fail(self) -> bool {
        matches!(
            self,
            Kind::Configure(_)
                | Kind::Serialize
                | Kind::Load
                | Kind::Initial
                | Kind::Choose
                | Kind::Endpoint
                | Kind::Apply
                | Kind::Sign
                | Kind::Body
                | Kind::Decide
        )
    }
}
