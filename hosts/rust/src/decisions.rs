//! What the engine decided, for the log: the crate `log`, under the target `wishqoram`.

use log::{info, log_enabled, Level};
use serde_json::Value;
use std::time::Duration;

/// Whether decisions are logged, so that the engine has to tell of them.
pub(crate) fn are_logged() -> bool {
    log_enabled!(target: "wishqoram", Level::Info)
}

/// Logs each decision of a run that is over, and how it ended.
pub(crate) fn log_decisions(client: &str, entries: &[String], ending: &Value, requests: usize) {
    if !are_logged() {
        return;
    }
    let decisions = entries.iter().filter_map(|entry| decision_in(entry));
    for (place, decision) in decisions.enumerate() {
        let attempt = place + 1;
        info!(target: "wishqoram", "{client}: attempt {attempt}: {}", text_of(&decision));
    }
    let count = match requests {
        1 => String::from("1 request"),
        _ => format!("{requests} requests"),
    };
    let word = word_of(ending.get(0).unwrap_or(ending));
    info!(target: "wishqoram", "{client}: {word} after {count}");
}

/// The answer of an entry that is a decision.
fn decision_in(entry: &str) -> Option<Value> {
    let mut entry: Value = serde_json::from_str(entry).ok()?;
    let is_decision = entry.get(1)?.as_str()? == "Decide";
    is_decision.then(|| entry[2].take())
}

/// A decision in words.
fn text_of(decision: &Value) -> String {
    match decision.as_array().map(Vec::as_slice) {
        Some([word, choice, remark]) if word == "Noted" => {
            let (verdict, reason, sums) = (&remark[0], &remark[3], &remark[4]);
            format!(
                "{}: {}{}",
                verdict_text(verdict),
                choice_text(choice),
                reason_text(reason, sums)
            )
        }
        _ if decision == "No" => String::from("no retry"),
        _ => decision.to_string(),
    }
}

fn verdict_text(verdict: &Value) -> String {
    match verdict.as_str() {
        Some("NoActionIndicated") => String::from("nothing to try again"),
        Some(word) => String::from(word),
        None => word_of(&verdict[1]),
    }
}

fn choice_text(choice: &Value) -> String {
    let pause = Duration::from_nanos(choice[1].as_u64().unwrap_or_default());
    match choice[0].as_str() {
        Some("Delay") => format!("retry after {:.3} s", pause.as_secs_f64()),
        Some(_) => format!("no retry, a pause of {:.3} s", pause.as_secs_f64()),
        None if choice == "Yes" => String::from("retry at once"),
        None => String::from("no retry"),
    }
}

fn reason_text(reason: &Value, sums: &Value) -> String {
    let left = match sums.as_array() {
        Some(sums) => format!(", {} of {} left", sums[2], sums[0]),
        None => String::new(),
    };
    let tokens = &reason[1];
    match reason[0].as_str() {
        Some("Granted") => format!(", paid {tokens} tokens{left}"),
        Some(_) => format!(", not enough tokens: it costs {tokens} tokens{left}"),
        None if reason == "OutOfAttempts" => String::from(", attempts are used up"),
        None => String::new(),
    }
}

fn word_of(word: &Value) -> String {
    word.as_str().map_or_else(|| word.to_string(), String::from)
}
