//! How runs end: responses and errors of the engine's endings.

use crate::bodies::Body;
use crate::call::Call;
use crate::errors::{Cause, Error, Failure, ServiceFailure};
use crate::messages::{Headers, Response};
use crate::protocol::{bytes_of, fault_of, headers_of};
use serde_json::Value;

/// The end of a run that has a response, whose body may not be read yet.
pub(crate) struct Ended {
    head: Head,
    attempts: usize,
}

/// A response as the engine has it.
struct Head {
    status: u16,
    headers: Headers,
    /// The front of the body, as much of it as the engine reads.
    handed: Vec<u8>,
}

impl Ended {
    /// The response, with all of the body that the host has.
    pub(crate) fn response(self, call: Option<&Call>) -> Result<Response, Error> {
        let Ended {
            head:
                Head {
                    status,
                    headers,
                    handed,
                },
            attempts,
        } = self;
        let body = match call.filter(|call| call.body.begins_with(&handed)) {
            Some(call) => call.body.taken()?,
            None => Body::from(handed),
        };
        Ok(Response::new(status, headers, attempts, body))
    }
}

/// What an ending is: a response, or the error of it.
pub(crate) fn end_of(
    ending: &Value,
    call: Option<&Call>,
    attempts: usize,
    cause: Option<Cause>,
) -> Result<Ended, Error> {
    let unknown = || Error::Protocol(ending.to_string());
    let part = |place: usize| ending.get(place).unwrap_or(&Value::Null);
    let failure = || {
        let response = head_of(part(2)).map(|head| held(head, call, attempts));
        let fault = fault_of(part(1)).ok_or_else(unknown)?;
        Ok(Box::new(Failure {
            fault,
            response,
            attempts,
            cause,
        }))
    };
    match ending.get(0).and_then(Value::as_str) {
        Some("Ok") => {
            let head = output_of(part(1)).ok_or_else(unknown)?;
            Ok(Ended { head, attempts })
        }
        Some("ServiceError") => {
            let name = part(1).get(1).and_then(bytes_of).ok_or_else(unknown)?;
            let name = String::from_utf8_lossy(&name).into_owned();
            let response = held(head_of(part(2)).ok_or_else(unknown)?, call, attempts);
            Err(Error::ServiceError(Box::new(ServiceFailure {
                name,
                response,
                attempts,
            })))
        }
        Some("ConstructionFailure") => Err(Error::ConstructionFailure(failure()?)),
        Some("TimeoutError") => Err(Error::TimeoutError(failure()?)),
        Some("DispatchFailure") => Err(Error::DispatchFailure(failure()?)),
        Some("ResponseError") => Err(Error::ResponseError(failure()?)),
        Some("Unfinished") => Err(Error::Unfinished),
        _ => Err(unknown()),
    }
}

/// The response that the payload of an output is.
fn output_of(payload: &Value) -> Option<Head> {
    let bytes = bytes_of(payload.get(1)?)?;
    head_of(&serde_json::from_slice(&bytes).ok()?)
}

fn head_of(form: &Value) -> Option<Head> {
    Some(Head {
        status: u16::try_from(form.get(0)?.as_u64()?).ok()?,
        headers: Headers::new(headers_of(form.get(1)?)?),
        handed: bytes_of(form.get(2)?)?,
    })
}

/// The response of an error, with what came of its body until now: nothing is read further.
fn held(head: Head, call: Option<&Call>, attempts: usize) -> Response {
    let call = call.filter(|call| call.body.begins_with(&head.handed));
    let body = call.map_or(head.handed, |call| call.body.copied());
    Response::new(head.status, head.headers, attempts, Body::from(body))
}
