//! The kinds of questions.

use crate::reading::read_name;
use serde::{Deserialize, Deserializer, Serialize, Serializer};

/// A step of the configuration.
#[derive(Clone, Copy, Debug, PartialEq, Eq)]
pub enum ConfigureStage {
    Client,
    Operation,
    Final,
}

/// A place in a run at which interceptors are called, in the order of a run without a retry.
#[derive(Clone, Copy, Debug, PartialEq, Eq)]
pub enum Hook {
    ReadBeforeExecutionClient,
    ReadBeforeExecutionOperation,
    ModifyBeforeSerialization,
    ReadBeforeSerialization,
    ReadAfterSerialization,
    ModifyBeforeRetryLoop,
    ReadBeforeAttempt,
    ModifyBeforeSigning,
    ReadBeforeSigning,
    ReadAfterSigning,
    ModifyBeforeTransmit,
    ReadBeforeTransmit,
    ReadAfterTransmit,
    ModifyBeforeDeserialization,
    ReadBeforeDeserialization,
    ReadAfterDeserialization,
    ModifyBeforeAttemptCompletion,
    ReadAfterAttempt,
    ModifyBeforeCompletion,
    ReadAfterExecution,
}

/// What a sleep is for.
#[derive(Clone, Copy, Debug, PartialEq, Eq)]
pub enum Role {
    Operation,
    Attempt,
    Send,
    Retry,
    LongPoll,
}

/// What may be given up while it is pending.
#[derive(Clone, Copy, Debug, PartialEq, Eq)]
pub enum Abandonable {
    Load,
    Choose,
    Endpoint,
    Transmit,
    Body,
    WaitSend,
    WaitRetry,
    WaitLongPoll,
}

/// The kind of a question.
#[derive(Clone, Copy, Debug, PartialEq, Eq)]
pub enum Kind {
    Configure(ConfigureStage),
    Hook(Hook),
    Serialize,
    Load,
    Initial,
    Start(Role),
    Wait(Role),
    Choose,
    Endpoint,
    Apply,
    Sign,
    Transmit,
    Stream,
    Body,
    Deserialize,
    Decide,
    Abandon(Abandonable),
    Park,
}

// The titles of kinds, to be written and to be read.
macro_rules! titles {
    ($($title:literal = $kind:ident $(($part:ident::$value:ident))?),+ $(,)?) => {
        impl Kind {
            /// The kind as it is printed.
            pub fn title(self) -> &'static str {
                match self {
                    $(Kind::$kind $(($part::$value))? => $title),+
                }
            }

            fn titled(text: &str) -> Option<Kind> {
                match text {
                    $($title => Some(Kind::$kind $(($part::$value))?),)+
                    _ => None,
                }
            }
        }
    };
}

titles! {
    "Configure Client" = Configure(ConfigureStage::Client),
    "Configure Operation" = Configure(ConfigureStage::Operation),
    "Configure Final" = Configure(ConfigureStage::Final),
    "Hook read_before_execution client" = Hook(Hook::ReadBeforeExecutionClient),
    "Hook read_before_execution operation" = Hook(Hook::ReadBeforeExecutionOperation),
    "Hook modify_before_serialization" = Hook(Hook::ModifyBeforeSerialization),
    "Hook read_before_serialization" = Hook(Hook::ReadBeforeSerialization),
    "Hook read_after_serialization" = Hook(Hook::ReadAfterSerialization),
    "Hook modify_before_retry_loop" = Hook(Hook::ModifyBeforeRetryLoop),
    "Hook read_before_attempt" = Hook(Hook::ReadBeforeAttempt),
    "Hook modify_before_signing" = Hook(Hook::ModifyBeforeSigning),
    "Hook read_before_signing" = Hook(Hook::ReadBeforeSigning),
    "Hook read_after_signing" = Hook(Hook::ReadAfterSigning),
    "Hook modify_before_transmit" = Hook(Hook::ModifyBeforeTransmit),
    "Hook read_before_transmit" = Hook(Hook::ReadBeforeTransmit),
    "Hook read_after_transmit" = Hook(Hook::ReadAfterTransmit),
    "Hook modify_before_deserialization" = Hook(Hook::ModifyBeforeDeserialization),
    "Hook read_before_deserialization" = Hook(Hook::ReadBeforeDeserialization),
    "Hook read_after_deserialization" = Hook(Hook::ReadAfterDeserialization),
    "Hook modify_before_attempt_completion" = Hook(Hook::ModifyBeforeAttemptCompletion),
    "Hook read_after_attempt" = Hook(Hook::ReadAfterAttempt),
    "Hook modify_before_completion" = Hook(Hook::ModifyBeforeCompletion),
    "Hook read_after_execution" = Hook(Hook::ReadAfterExecution),
    "Serialize" = Serialize,
    "Load" = Load,
    "Initial" = Initial,
    "Start Operation" = Start(Role::Operation),
    "Start Attempt" = Start(Role::Attempt),
    "Start Send" = Start(Role::Send),
    "Start Retry" = Start(Role::Retry),
    "Start LongPoll" = Start(Role::LongPoll),
    "Wait Operation" = Wait(Role::Operation),
    "Wait Attempt" = Wait(Role::Attempt),
    "Wait Send" = Wait(Role::Send),
    "Wait Retry" = Wait(Role::Retry),
    "Wait LongPoll" = Wait(Role::LongPoll),
    "Choose" = Choose,
    "Endpoint" = Endpoint,
    "Apply" = Apply,
    "Sign" = Sign,
    "Transmit" = Transmit,
    "Stream" = Stream,
    "Body" = Body,
    "Deserialize" = Deserialize,
    "Decide" = Decide,
    "Abandon Load" = Abandon(Abandonable::Load),
    "Abandon Choose" = Abandon(Abandonable::Choose),
    "Abandon Endpoint" = Abandon(Abandonable::Endpoint),
    "Abandon Transmit" = Abandon(Abandonable::Transmit),
    "Abandon Body" = Abandon(Abandonable::Body),
    "Abandon Wait Send" = Abandon(Abandonable::WaitSend),
    "Abandon Wait Retry" = Abandon(Abandonable::WaitRetry),
    "Abandon Wait LongPoll" = Abandon(Abandonable::WaitLongPoll),
    "Park" = Park,
}

impl Kind {
    /// The question that gives up what a question of this kind has pending; Park where it has
    /// nothing.
    pub fn given_up_by(self) -> Kind {
        match self {
            Kind::Load => Kind::Abandon(Abandonable::Load),
            Kind::Choose => Kind::Abandon(Abandonable::Choose),
            Kind::Endpoint => Kind::Abandon(Abandonable::Endpoint),
            Kind::Transmit => Kind::Abandon(Abandonable::Transmit),
            Kind::Body => Kind::Abandon(Abandonable::Body),
            Kind::Wait(Role::Send) => Kind::Abandon(Abandonable::WaitSend),
            Kind::Wait(Role::Retry) => Kind::Abandon(Abandonable::WaitRetry),
            Kind::Wait(Role::LongPoll) => Kind::Abandon(Abandonable::WaitLongPoll),
            _ => Kind::Park,
        }
    }
}

impl Serialize for Kind {
    fn serialize<S: Serializer>(&self, serializer: S) -> Result<S::Ok, S::Error> {
        serializer.serialize_str(self.title())
    }
}

impl<'de> Deserialize<'de> for Kind {
    fn deserialize<D: Deserializer<'de>>(deserializer: D) -> Result<Kind, D::Error> {
        read_name(deserializer, Kind::titled)
    }
}

impl Hook {
    /// The hook's name: its title without the word before it.
    pub fn name(self) -> &'static str {
        &Kind::Hook(self).title()["Hook ".len()..]
    }
}

impl Serialize for Hook {
    fn serialize<S: Serializer>(&self, serializer: S) -> Result<S::Ok, S::Error> {
        serializer.serialize_str(self.name())
    }
}
