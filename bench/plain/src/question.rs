//! What a world is asked.

use crate::fault::Outcome;
use crate::http::{Endpoint, HttpRequest, HttpResponse, Identity, Payload};
use crate::kind::{Abandonable, ConfigureStage, Hook, Kind, Role};
use crate::setting::Settings;
use crate::text::Text;
use std::rc::Rc;

/// What a hook is shown.
#[derive(Clone, Debug)]
pub struct HookView {
    /// The operation's input, up to serialization.
    pub input: Option<Rc<Payload>>,
    pub request: Option<Rc<HttpRequest>>,
    pub response: Option<Rc<HttpResponse>>,
    pub outcome: Option<Rc<Outcome>>,
    /// The number of the attempt, from 1; 0 before the first.
    pub attempt: u64,
    pub settings: Settings,
}

/// A question with the parts of the run that it hands on. A part that doesn't stand is None.
#[derive(Clone, Debug)]
pub enum Question {
    Configure {
        stage: ConfigureStage,
        settings: Settings,
    },
    Hook {
        hook: Hook,
        view: HookView,
    },
    Serialize {
        input: Option<Rc<Payload>>,
        settings: Settings,
    },
    Load {
        request: Option<Rc<HttpRequest>>,
    },
    Initial {
        settings: Settings,
    },
    Start {
        role: Role,
        nanos: Option<u64>,
    },
    Wait {
        role: Role,
    },
    Choose {
        settings: Settings,
    },
    Endpoint {
        settings: Settings,
        identity: Option<Rc<Identity>>,
    },
    Apply {
        settings: Settings,
        request: Option<Rc<HttpRequest>>,
        endpoint: Option<Rc<Endpoint>>,
    },
    Sign {
        settings: Settings,
        request: Option<Rc<HttpRequest>>,
        scheme: Option<Text>,
        identity: Option<Rc<Identity>>,
        endpoint: Option<Rc<Endpoint>>,
    },
    Transmit {
        settings: Settings,
        request: Option<Rc<HttpRequest>>,
    },
    Stream {
        settings: Settings,
        response: Option<Rc<HttpResponse>>,
    },
    Body {
        settings: Settings,
        response: Option<Rc<HttpResponse>>,
    },
    Deserialize {
        settings: Settings,
        response: Option<Rc<HttpResponse>>,
    },
    Decide {
        settings: Settings,
        request: Option<Rc<HttpRequest>>,
        response: Option<Rc<HttpResponse>>,
        outcome: Option<Rc<Outcome>>,
        attempt: u64,
    },
    Abandon {
        abandoned: Abandonable,
    },
    Park,
}

impl Question {
    pub fn kind(&self) -> Kind {
        match self {
            Question::Configure { stage, .. } => Kind::Configure(*stage),
            Question::Hook { hook, .. } => Kind::Hook(*hook),
            Question::Serialize { .. } => Kind::Serialize,
            Question::Load { .. } => Kind::Load,
            Question::Initial { .. } => Kind::Initial,
            Question::Start { role, .. } => Kind::Start(*role),
            Question::Wait { role } => Kind::Wait(*role),
            Question::Choose { .. } => Kind::Choose,
            Question::Endpoint { .. } => Kind::Endpoint,
            Question::Apply { .. } => Kind::Apply,
            Question::Sign { .. } => Kind::Sign,
            Question::Transmit { .. } => Kind::Transmit,
            Question::Stream { .. } => Kind::Stream,
            Question::Body { .. } => Kind::Body,
            Question::Deserialize { .. } => Kind::Deserialize,
            Question::Decide { .. } => Kind::Decide,
            Question::Abandon { abandoned } => Kind::Abandon(*abandoned),
            Question::Park => Kind::Park,
        }
    }
}
