//! What stands in a run after the entries so far.

use crate::fault::{Fault, FaultKind, Outcome};
use crate::http::{Endpoint, HttpRequest, Identity, Payload};
use crate::kind::{Kind, Role};
use crate::names::SpecVersion;
use crate::question::{HookView, Question};
use crate::setting::{Setting, SettingKey, Settings, TimeoutConfig};
use crate::text::Text;
use std::rc::Rc;

/// How far a run has come, in the order of a run without a retry.
#[derive(Clone, Copy, Debug, PartialEq, Eq)]
pub enum Phase {
    BeforeSerialization,
    Serialization,
    BeforeTransmit,
    Transmit,
    BeforeDeserialization,
    Deserialization,
    AfterDeserialization,
}

/// What stands in a run.
pub struct Standing {
    pub view: HookView,
    pub phase: Phase,
    /// The request as it stood before the first attempt, where it can be sent again.
    pub checkpoint: Option<Rc<HttpRequest>>,
    pub scheme: Option<Text>,
    pub identity: Option<Rc<Identity>>,
    pub endpoint: Option<Rc<Endpoint>>,
    /// The last delay or pause that was asked for, in nanoseconds.
    pub delay: Option<u64>,
    /// How long the deadline that was started is, in nanoseconds.
    pub operation_deadline: Option<u64>,
    pub attempt_deadline: Option<u64>,
}

impl Standing {
    /// What stands at a run's start: the input, and nothing else.
    pub fn new(input: Payload) -> Standing {
        Standing {
            view: HookView {
                input: Some(Rc::new(input)),
                request: None,
                response: None,
                outcome: None,
                attempt: 0,
                settings: Settings::default(),
            },
            phase: Phase::BeforeSerialization,
            checkpoint: None,
            scheme: None,
            identity: None,
            endpoint: None,
            delay: None,
            operation_deadline: None,
            attempt_deadline: None,
        }
    }

    /// Makes the outcome this failure, whatever stood.
    pub fn fail(&mut self, kind: FaultKind, text: Text) {
        self.view.outcome = Some(Rc::new(Outcome::Failed(Fault { kind, text })));
    }

    pub fn is_failed(&self) -> bool {
        matches!(self.view.outcome.as_deref(), Some(Outcome::Failed(_)))
    }

    /// How long a sleep of this role is, in nanoseconds.
    pub fn nanos_for(&self, role: Role) -> Option<u64> {
        match role {
            Role::Operation => self.timeouts()?.operation,
            Role::Attempt => self.timeouts()?.attempt,
            Role::Send | Role::Retry | Role::LongPoll => self.delay,
        }
    }

    fn timeouts(&self) -> Option<&TimeoutConfig> {
        match self.view.settings.load(&SettingKey::Timeouts) {
            Some(Setting::Timeouts(timeouts)) => Some(timeouts),
            _ => None,
        }
    }

    /// Whether the request's body is loaded into memory before the first attempt.
    pub fn loads_body(&self) -> bool {
        let setting = self.view.settings.load(&SettingKey::LoadBody);
        matches!(setting, Some(Setting::LoadBody(true)))
    }

    /// Whether each attempt but the first needs a token of its own.
    pub fn needs_token(&self) -> bool {
        match self.view.settings.load(&SettingKey::Retry) {
            Some(Setting::Retry(retry)) => {
                matches!(retry.spec, Some(spec) if spec.version == SpecVersion::V2_1)
            }
            _ => false,
        }
    }

    /// The question of this kind, with the parts that stand.
    pub fn question(&self, kind: Kind) -> Question {
        match kind {
            Kind::Hook(hook) => Question::Hook {
                hook,
                view: self.view.clone(),
            },
            Kind::Load => Question::Load {
                request: self.view.request.clone(),
            },
            Kind::Start(role) => Question::Start {
                role,
                nanos: self.nanos_for(role),
            },
            Kind::Wait(role) => Question::Wait { role },
            Kind::Abandon(abandoned) => Question::Abandon { abandoned },
            Kind::Park => Question::Park,
            _ => self.question_with_settings(kind),
        }
    }

    fn question_with_settings(&self, kind: Kind) -> Question {
        let settings = self.view.settings.clone();
        match kind {
            Kind::Configure(stage) => Question::Configure { stage, settings },
            Kind::Serialize => Question::Serialize {
                input: self.view.input.clone(),
                settings,
            },
            Kind::Initial => Question::Initial { settings },
            Kind::Choose => Question::Choose { settings },
            Kind::Endpoint => Question::Endpoint {
                settings,
                identity: self.identity.clone(),
            },
            Kind::Apply | Kind::Sign | Kind::Transmit => self.request_question(kind, settings),
            _ => self.response_question(kind, settings),
        }
    }

    fn request_question(&self, kind: Kind, settings: Settings) -> Question {
        let request = self.view.request.clone();
        match kind {
            Kind::Apply => Question::Apply {
                settings,
                request,
                endpoint: self.endpoint.clone(),
            },
            Kind::Sign => Question::Sign {
                settings,
                request,
                scheme: self.scheme.clone(),
                identity: self.identity.clone(),
                endpoint: self.endpoint.clone(),
            },
            _ => Question::Transmit { settings, request },
        }
    }

    fn response_question(&self, kind: Kind, settings: Settings) -> Question {
        let response = self.view.response.clone();
        match kind {
            Kind::Stream => Question::Stream { settings, response },
            Kind::Body => Question::Body { settings, response },
            Kind::Deserialize => Question::Deserialize { settings, response },
            _ => Question::Decide {
                settings,
                request: self.view.request.clone(),
                response,
                outcome: self.view.outcome.clone(),
                attempt: self.view.attempt,
            },
        }
    }
}
