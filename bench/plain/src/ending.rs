//! How a run ended.

use crate::fault::{Fault, FaultKind, Outcome};
use crate::http::{HttpRequest, HttpResponse, Payload};
use crate::names::StopPoint;
use crate::script::RunHead;
use crate::standing::{Phase, Standing};
use crate::text::Text;
use serde::{Serialize, Serializer};
use std::rc::Rc;

/// The error of an operation.
#[derive(Clone, Debug)]
pub enum SdkError {
    ConstructionFailure(Fault),
    TimeoutError(Fault),
    DispatchFailure(Fault),
    ResponseError(Fault, Rc<HttpResponse>),
    ServiceError(Payload, Rc<HttpResponse>),
}

/// How a run ended.
#[derive(Clone, Debug)]
pub enum Ending {
    /// With an output.
    Output(Payload),
    /// At the stop point, with the request that stands there.
    Stopped(Option<Rc<HttpRequest>>),
    Error(SdkError),
    /// The fuel was used up.
    Unfinished,
    /// With a payload of another kind than is looked for.
    WrongType(Payload),
}

impl Ending {
    /// The ending of a run at whose end this stands; None stands for a run that isn't whole.
    pub fn of(head: &RunHead, standing: Option<Standing>) -> Ending {
        match standing {
            Some(standing) => Ending::of_whole(head, standing),
            None => Ending::Unfinished,
        }
    }

    fn of_whole(head: &RunHead, standing: Standing) -> Ending {
        let view = standing.view;
        match (view.outcome.as_deref(), head.stop) {
            (Some(Outcome::Failed(fault)), _) => {
                let error = SdkError::of(fault.clone(), standing.phase, view.response);
                Ending::of_error(head, error)
            }
            (Some(Outcome::Output(output)), StopPoint::BeforeTransmit) => {
                Ending::Output(output.clone())
            }
            (Some(Outcome::Output(output)), StopPoint::None) => {
                Ending::of_output(head, output.clone())
            }
            (None, StopPoint::BeforeTransmit) => Ending::Stopped(view.request),
            (None, StopPoint::None) => {
                let fault = Fault {
                    kind: FaultKind::Other,
                    text: Text::from("no outcome stands"),
                };
                Ending::of_error(head, SdkError::of(fault, standing.phase, view.response))
            }
        }
    }

    fn of_output(head: &RunHead, output: Payload) -> Ending {
        if u64::from(output.kind) == head.output_kind {
            Ending::Output(output)
        } else {
            Ending::WrongType(output)
        }
    }

    fn of_error(head: &RunHead, error: SdkError) -> Ending {
        match error {
            SdkError::ServiceError(payload, _) if u64::from(payload.kind) != head.error_kind => {
                Ending::WrongType(payload)
            }
            error => Ending::Error(error),
        }
    }

    /// The status that the program ends with.
    pub fn status(&self) -> u8 {
        match self {
            Ending::Output(_) | Ending::Stopped(_) => 0,
            Ending::Error(_) => 10,
            Ending::Unfinished => 11,
            Ending::WrongType(_) => 12,
        }
    }
}

impl SdkError {
    // The error that a failure gives, by its kind, the phase, and the response that is held.
    fn of(fault: Fault, phase: Phase, response: Option<Rc<HttpResponse>>) -> SdkError {
        let is_building = matches!(phase, Phase::BeforeSerialization | Phase::Serialization);
        match (fault.kind, response) {
            (FaultKind::Operation(payload), Some(response)) => {
                SdkError::ServiceError(payload, response)
            }
            (kind, response) => {
                let fault = Fault {
                    kind,
                    text: fault.text,
                };
                SdkError::of_fault(fault, is_building, response)
            }
        }
    }

    fn of_fault(fault: Fault, is_building: bool, response: Option<Rc<HttpResponse>>) -> SdkError {
        match (&fault.kind, response) {
            (FaultKind::Connector(_), _) => SdkError::DispatchFailure(fault),
            (FaultKind::Timeout, _) => SdkError::TimeoutError(fault),
            (FaultKind::Response, Some(response)) => SdkError::ResponseError(fault, response),
            _ if is_building => SdkError::ConstructionFailure(fault),
            (_, Some(response)) => SdkError::ResponseError(fault, response),
            (_, None) => SdkError::DispatchFailure(fault),
        }
    }
}

impl Serialize for SdkError {
    fn serialize<S: Serializer>(&self, serializer: S) -> Result<S::Ok, S::Error> {
        match self {
            SdkError::ConstructionFailure(fault) => {
                ("ConstructionFailure", fault).serialize(serializer)
            }
            SdkError::TimeoutError(fault) => ("TimeoutError", fault).serialize(serializer),
            SdkError::DispatchFailure(fault) => ("DispatchFailure", fault).serialize(serializer),
            SdkError::ResponseError(fault, response) => {
                ("ResponseError", fault, &**response).serialize(serializer)
            }
            SdkError::ServiceError(payload, response) => {
                ("ServiceError", payload, &**response).serialize(serializer)
            }
        }
    }
}

impl Serialize for Ending {
    fn serialize<S: Serializer>(&self, serializer: S) -> Result<S::Ok, S::Error> {
        match self {
            Ending::Output(payload) => ("Ok", payload).serialize(serializer),
            Ending::Stopped(request) => ("Stopped", request.as_deref()).serialize(serializer),
            Ending::Error(error) => error.serialize(serializer),
            Ending::Unfinished => ("Unfinished",).serialize(serializer),
            Ending::WrongType(payload) => ("WrongType", payload).serialize(serializer),
        }
    }
}
