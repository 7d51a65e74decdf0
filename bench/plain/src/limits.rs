//! Limits of what a script may hold.

use crate::answer::{Answer, Chosen, HookAnswer};
use crate::fault::{Change, Outcome};
use crate::http::{Body, Endpoint, Headers, HttpRequest, HttpResponse};
use crate::script::Script;
use crate::setting::{Layer, LayerEntry, Setting, SettingKey};
use crate::text::{Blob, Text};

/// The most bytes of the whole input.
pub const INPUT_LIMIT: usize = 16 << 20;

const FUEL_LIMIT: u64 = 100_000;
const BODY_LIMIT: usize = 16 << 10;
const TEXT_LIMIT: usize = 4 << 10;
const HEADER_LIMIT: usize = 32;
const HEAD_LIMIT: usize = 8 << 10;
const KEY_LIMIT: usize = 64;

/// Whether fuel, texts, bodies, heads and keys of a script are within their limits.
pub fn is_within(script: &Script) -> bool {
    script.head.fuel <= FUEL_LIMIT
        && script
            .answers
            .iter()
            .all(|answer| answer_fits(&answer.answer))
        && keys_fit(script)
}

fn answer_fits(answer: &Answer) -> bool {
    match answer {
        Answer::Failed(text) | Answer::ConnectorFailed(_, text) => text_fits(text),
        Answer::Layer(layer) => layer_fits(layer),
        Answer::Hooked(answer) => hook_answer_fits(answer),
        Answer::Request(request) => request_fits(request),
        Answer::Loaded(bytes) | Answer::Read(bytes) => bytes_fit(bytes),
        Answer::Chosen(chosen) => chosen_fits(chosen),
        Answer::Endpoint(endpoint) => endpoint_fits(endpoint),
        Answer::Response(response) => response_fits(response),
        Answer::Outcome(outcome) => outcome_fits(outcome),
        _ => true,
    }
}

fn text_fits(text: &Text) -> bool {
    text.as_str().len() <= TEXT_LIMIT
}

fn bytes_fit(bytes: &Blob) -> bool {
    bytes.as_bytes().len() <= BODY_LIMIT
}

fn body_fits(body: &Body) -> bool {
    match body {
        Body::Bytes(bytes) | Body::Once(bytes) => bytes_fit(bytes),
        Body::Taken => true,
    }
}

fn head_fits(headers: &Headers) -> bool {
    let sizes = headers
        .iter()
        .map(|(name, value)| name.as_str().len() + value.as_bytes().len());
    headers.iter().count() <= HEADER_LIMIT && sizes.sum::<usize>() <= HEAD_LIMIT
}

fn request_fits(request: &HttpRequest) -> bool {
    text_fits(&request.method)
        && text_fits(&request.uri)
        && head_fits(&request.headers)
        && body_fits(&request.body)
}

fn response_fits(response: &HttpResponse) -> bool {
    head_fits(&response.headers) && body_fits(&response.body)
}

fn endpoint_fits(endpoint: &Endpoint) -> bool {
    text_fits(&endpoint.url)
        && endpoint
            .headers
            .iter()
            .all(|header| header.values.iter().all(text_fits))
        && endpoint.schemes.iter().flatten().all(text_fits)
}

fn outcome_fits(outcome: &Outcome) -> bool {
    match outcome {
        Outcome::Output(_) => true,
        Outcome::Failed(fault) => text_fits(&fault.text),
    }
}

fn change_fits(change: &Change) -> bool {
    match change {
        Change::Input(_) => true,
        Change::Request(request) => request_fits(request),
        Change::Response(response) => response_fits(response),
        Change::Outcome(outcome) => outcome_fits(outcome),
    }
}

fn hook_answer_fits(answer: &HookAnswer) -> bool {
    answer.change.iter().all(change_fits)
        && layer_fits(&answer.settings)
        && answer.failure.iter().all(text_fits)
}

fn chosen_fits(chosen: &Chosen) -> bool {
    text_fits(&chosen.scheme)
        && chosen
            .endpoint
            .iter()
            .all(|endpoint| endpoint_fits(endpoint))
        && layer_fits(&chosen.settings)
}

fn layer_fits(layer: &Layer) -> bool {
    layer.entries().iter().all(entry_fits)
}

fn entry_fits(entry: &LayerEntry) -> bool {
    let key_fits = match &entry.key {
        SettingKey::User(key) => key.as_str().len() - "user.".len() <= TEXT_LIMIT,
        _ => true,
    };
    key_fits && entry.value.iter().all(|setting| setting_fits(setting))
}

fn setting_fits(setting: &Setting) -> bool {
    match setting {
        Setting::Partition(text) | Setting::Prefix(text) => text_fits(text),
        Setting::Preference(texts) | Setting::Disable(texts) => texts.iter().all(text_fits),
        _ => true,
    }
}

// Whether the layers name no more different keys than they may.
fn keys_fit(script: &Script) -> bool {
    let mut keys: Vec<&SettingKey> = Vec::new();
    let layers = script
        .answers
        .iter()
        .filter_map(|answer| layer_of(&answer.answer));
    for entry in layers.flat_map(Layer::entries) {
        if !keys.contains(&&entry.key) {
            keys.push(&entry.key);
        }
        if keys.len() > KEY_LIMIT {
            return false;
        }
    }
    true
}

fn layer_of(answer: &Answer) -> Option<&Layer> {
    match answer {
        Answer::Layer(layer) => Some(layer),
        Answer::Hooked(answer) => Some(&answer.settings),
        Answer::Chosen(chosen) => Some(&chosen.settings),
        _ => None,
    }
}
