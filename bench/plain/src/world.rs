//! What answers the questions of a run.

use crate::answer::Answer;
use crate::kind::Kind;
use crate::question::Question;
use std::iter::Peekable;
use std::vec::IntoIter;

/// Everything outside of the engine.
pub trait World {
    /// Answers one question, by an answer that fits it.
    fn ask(&mut self, question: Question) -> Answer;
}

/// One call of a world: what it was asked, and what it answered.
#[derive(Clone, Debug)]
pub struct Entry {
    pub question: Question,
    pub answer: Answer,
}

/// An answer of a script, with the kind of question that it is for and fits.
#[derive(Clone, Debug)]
pub struct ScriptAnswer {
    pub kind: Kind,
    pub answer: Answer,
}

/// A world that answers from a list, and keeps a log. It takes the next answer of the list exactly
/// where that is for a question of this kind. Every other question has an answer of its own.
pub struct ScriptWorld {
    answers: Peekable<IntoIter<ScriptAnswer>>,
    log: Vec<Entry>,
}

impl ScriptWorld {
    /// A world that was asked nothing, with room for this many calls.
    pub fn new(answers: Vec<ScriptAnswer>, calls: usize) -> ScriptWorld {
        ScriptWorld {
            answers: answers.into_iter().peekable(),
            log: Vec::with_capacity(calls),
        }
    }

    /// What was asked and answered, in order.
    pub fn into_log(self) -> Vec<Entry> {
        self.log
    }
}

impl World for ScriptWorld {
    fn ask(&mut self, question: Question) -> Answer {
        let kind = question.kind();
        let answer = match self.answers.next_if(|next| next.kind == kind) {
            Some(next) => next.answer,
            None => default_for(kind),
        };
        self.log.push(Entry {
            question,
            answer: answer.clone(),
        });
        answer
    }
}

// What is answered where the list has no answer for the question.
fn default_for(kind: Kind) -> Answer {
    match kind {
        Kind::Hook(_) => Answer::Done,
        Kind::Wait(_) => Answer::Ready,
        Kind::Abandon(_) => Answer::Abandoned,
        Kind::Park => Answer::Parked,
        _ => Answer::Absent,
    }
}
