//! How an answer changes what stands.

use crate::answer::{Answer, Chosen, HookAnswer};
use crate::fault::{Change, FaultKind, Outcome};
use crate::http::{Body, HttpRequest, HttpResponse};
use crate::kind::{ConfigureStage, Hook, Kind, Role};
use crate::note::Choice;
use crate::setting::Layer;
use crate::standing::{Phase, Standing};
use crate::text::{Blob, Text};
use std::rc::Rc;

const REFUSED: &str = "the retry strategy indicates that an initial request shouldn't be made, \
                       but it didn't specify why";

impl Standing {
    /// Takes in an answer to a question of this kind, which asked for a sleep of `nanos`
    /// nanoseconds where it is a Start.
    pub fn take_in(&mut self, kind: Kind, nanos: Option<u64>, answer: &Answer) {
        match kind {
            Kind::Configure(stage) => self.configured(stage, answer),
            Kind::Hook(hook) => self.hooked(hook, answer),
            Kind::Serialize => self.serialized(answer),
            Kind::Load => self.loaded(answer),
            Kind::Initial => self.granted(answer),
            Kind::Start(role) => self.started(role, nanos, answer),
            Kind::Wait(role) => self.waited(role, answer),
            Kind::Choose => self.chosen(answer),
            Kind::Endpoint => self.resolved(answer),
            Kind::Apply | Kind::Sign => self.rewritten(answer),
            Kind::Transmit => self.transmitted(answer),
            Kind::Stream => self.streamed(answer),
            Kind::Body => self.body_read(answer),
            Kind::Deserialize => self.deserialized(answer),
            Kind::Decide => self.decided(answer),
            Kind::Abandon(_) | Kind::Park => {}
        }
    }

    fn fail_absent(&mut self) {
        self.fail(FaultKind::Other, Text::from("absent"));
    }

    // An untyped failure, or an absent part.
    fn fail_by(&mut self, answer: &Answer) {
        match answer {
            Answer::Failed(text) => self.fail(FaultKind::Other, text.clone()),
            Answer::Absent => self.fail_absent(),
            _ => {}
        }
    }

    fn configured(&mut self, stage: ConfigureStage, answer: &Answer) {
        match answer {
            Answer::Layer(layer) => self.configured_by(stage, layer),
            _ => self.fail_by(answer),
        }
    }

    fn configured_by(&mut self, stage: ConfigureStage, layer: &Rc<Layer>) {
        match stage {
            ConfigureStage::Client | ConfigureStage::Operation => self.view.settings.push(layer),
            ConfigureStage::Final => self.view.settings.merge(layer),
        }
    }

    fn hooked(&mut self, hook: Hook, answer: &Answer) {
        if let Answer::Hooked(answer) = answer {
            self.hooked_by(hook, answer);
        }
    }

    fn hooked_by(&mut self, hook: Hook, answer: &HookAnswer) {
        if let Some(change) = &answer.change {
            self.write(hook, change);
        }
        self.view.settings.merge(&answer.settings);
        if let Some(text) = &answer.failure {
            self.fail(FaultKind::Interceptor(hook), text.clone());
        }
    }

    // Makes the change that this hook may write, and ignores any other.
    fn write(&mut self, hook: Hook, change: &Change) {
        match (hook, change) {
            (Hook::ModifyBeforeSerialization, Change::Input(input)) => {
                self.view.input = Some(input.clone());
            }
            (
                Hook::ModifyBeforeRetryLoop
                | Hook::ModifyBeforeSigning
                | Hook::ModifyBeforeTransmit,
                Change::Request(request),
            ) => self.view.request = Some(request.clone()),
            (Hook::ModifyBeforeDeserialization, Change::Response(response)) => {
                self.view.response = Some(response.clone());
            }
            (_, Change::Outcome(outcome)) if hook.writes_outcome() => {
                self.view.outcome = Some(outcome.clone());
            }
            _ => {}
        }
    }

    fn serialized(&mut self, answer: &Answer) {
        self.view.input = None;
        self.phase = Phase::Serialization;
        match answer {
            Answer::Request(request) => {
                self.view.request = Some(request.clone());
                if !self.loads_body() {
                    self.phase = Phase::BeforeTransmit;
                }
            }
            _ => self.fail_by(answer),
        }
    }

    fn loaded(&mut self, answer: &Answer) {
        match answer {
            Answer::Loaded(bytes) => {
                if let Some(request) = &self.view.request {
                    self.view.request = Some(Rc::new(request_with(request, bytes)));
                }
                self.phase = Phase::BeforeTransmit;
            }
            _ => self.fail_by(answer),
        }
    }

    fn granted(&mut self, answer: &Answer) {
        match answer {
            Answer::Go => self.begin_attempts(),
            Answer::No => {
                if self.view.attempt == 0 {
                    self.fail(FaultKind::Other, Text::from(REFUSED));
                }
            }
            Answer::Delay(nanos) => self.delay = Some(*nanos),
            _ => self.fail_by(answer),
        }
    }

    // The first attempt begins, unless a later one stands already.
    fn begin_attempts(&mut self) {
        if self.view.attempt == 0 {
            self.checkpoint = self
                .view
                .request
                .clone()
                .filter(|request| request.can_be_resent());
            self.view.attempt = 1;
        }
    }

    // Begins a further attempt, where a checkpoint stands.
    fn rewind(&mut self) {
        if self.checkpoint.is_none() {
            return;
        }
        self.view.request = self.checkpoint.clone();
        self.view.response = None;
        self.view.outcome = None;
        self.phase = Phase::BeforeTransmit;
        self.view.attempt = self.view.attempt.saturating_add(1);
        self.scheme = None;
        self.identity = None;
        self.endpoint = None;
    }

    fn started(&mut self, role: Role, nanos: Option<u64>, answer: &Answer) {
        match (answer, role) {
            (Answer::Started, Role::Operation) => self.operation_deadline = nanos,
            (Answer::Started, Role::Attempt) => self.attempt_deadline = nanos,
            (Answer::Started, Role::Retry) => self.rewind(),
            (Answer::Absent, Role::Send | Role::Retry) => self.fail_absent(),
            _ => {}
        }
    }

    fn waited(&mut self, role: Role, answer: &Answer) {
        let text = match (answer, role) {
            (Answer::Ready, Role::Operation) => format!(
                "operation timeout (all attempts including retries) occurred after {} ns",
                self.operation_deadline.unwrap_or(0)
            ),
            (Answer::Ready, Role::Attempt) => format!(
                "operation attempt timeout (single attempt) occurred after {} ns",
                self.attempt_deadline.unwrap_or(0)
            ),
            _ => return,
        };
        self.fail(FaultKind::Timeout, Text::from(text.as_str()));
    }

    fn chosen(&mut self, answer: &Answer) {
        match answer {
            Answer::Chosen(chosen) => self.chosen_by(chosen),
            _ => self.fail_by(answer),
        }
    }

    fn chosen_by(&mut self, chosen: &Chosen) {
        self.view.settings.merge(&chosen.settings);
        self.scheme = Some(chosen.scheme.clone());
        self.identity = Some(chosen.identity.clone());
        self.endpoint = chosen.endpoint.clone();
    }

    fn resolved(&mut self, answer: &Answer) {
        match answer {
            Answer::Endpoint(endpoint) => self.endpoint = Some(endpoint.clone()),
            _ => self.fail_by(answer),
        }
    }

    fn rewritten(&mut self, answer: &Answer) {
        match answer {
            Answer::Request(request) => self.view.request = Some(request.clone()),
            _ => self.fail_by(answer),
        }
    }

    fn transmitted(&mut self, answer: &Answer) {
        match answer {
            Answer::Pending => {}
            Answer::Response(response) => {
                self.view.response = Some(response.clone());
                self.phase = Phase::BeforeDeserialization;
            }
            Answer::ConnectorFailed(kind, text) => {
                self.fail(FaultKind::Connector(*kind), text.clone());
                self.phase = Phase::Transmit;
            }
            _ => {
                self.fail_by(answer);
                self.phase = Phase::Transmit;
            }
        }
    }

    fn streamed(&mut self, answer: &Answer) {
        match answer {
            Answer::Outcome(outcome) => self.settle(outcome),
            Answer::Absent => self.settle_absent(),
            _ => self.phase = Phase::Deserialization,
        }
    }

    fn body_read(&mut self, answer: &Answer) {
        match answer {
            Answer::Read(bytes) => {
                if let Some(response) = &self.view.response {
                    self.view.response = Some(Rc::new(response_with(response, bytes)));
                }
            }
            Answer::Failed(text) => {
                self.fail(FaultKind::Response, text.clone());
                self.phase = Phase::AfterDeserialization;
            }
            Answer::Absent => self.settle_absent(),
            _ => {}
        }
    }

    fn deserialized(&mut self, answer: &Answer) {
        match answer {
            Answer::Outcome(outcome) => self.settle(outcome),
            Answer::Absent => self.settle_absent(),
            _ => {}
        }
    }

    // The outcome of the response stands.
    fn settle(&mut self, outcome: &Rc<Outcome>) {
        self.view.outcome = Some(outcome.clone());
        self.phase = Phase::AfterDeserialization;
    }

    fn settle_absent(&mut self) {
        self.fail_absent();
        self.phase = Phase::AfterDeserialization;
    }

    fn decided(&mut self, answer: &Answer) {
        match answer {
            Answer::Decided(Choice::Yes, _) => self.rewind(),
            Answer::Decided(Choice::No, _) => {}
            Answer::Decided(Choice::NoAfter(nanos) | Choice::Delay(nanos), _) => {
                self.delay = Some(*nanos);
            }
            _ => self.fail_by(answer),
        }
    }
}

impl HttpRequest {
    fn can_be_resent(&self) -> bool {
        matches!(self.body, Body::Bytes(_))
    }
}

fn request_with(request: &HttpRequest, bytes: &Blob) -> HttpRequest {
    HttpRequest {
        method: request.method.clone(),
        uri: request.uri.clone(),
        headers: request.headers.clone(),
        body: Body::Bytes(bytes.clone()),
    }
}

fn response_with(response: &HttpResponse, bytes: &Blob) -> HttpResponse {
    HttpResponse {
        status: response.status,
        headers: response.headers.clone(),
        body: Body::Bytes(bytes.clone()),
    }
}
