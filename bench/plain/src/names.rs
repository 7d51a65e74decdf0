//! Small enums that have a name in scripts and prints.

use crate::reading::read_name;
use serde::{Deserialize, Deserializer, Serialize, Serializer};

// An enum whose values are written as their names.
macro_rules! named {
    ($(#[$about:meta])* $name:ident { $($variant:ident),+ $(,)? }) => {
        $(#[$about])*
        #[derive(Clone, Copy, Debug, PartialEq, Eq)]
        pub enum $name {
            $($variant),+
        }

        impl $name {
            /// The name in scripts and prints.
            pub fn name(self) -> &'static str {
                match self {
                    $($name::$variant => stringify!($variant)),+
                }
            }

            fn named(text: &str) -> Option<$name> {
                $(
                    if text == stringify!($variant) {
                        return Some($name::$variant);
                    }
                )+
                None
            }
        }

        impl Serialize for $name {
            fn serialize<S: Serializer>(&self, serializer: S) -> Result<S::Ok, S::Error> {
                serializer.serialize_str(self.name())
            }
        }

        impl<'de> Deserialize<'de> for $name {
            fn deserialize<D: Deserializer<'de>>(deserializer: D) -> Result<$name, D::Error> {
                read_name(deserializer, $name::named)
            }
        }
    };
}

named! {
    /// Where a run stops early.
    StopPoint { None, BeforeTransmit }
}

named! {
    /// What a retry would have to do with.
    ErrorKind { TransientError, ThrottlingError, ServerError, ClientError }
}

named! {
    /// How retries are paced.
    RetryMode { Standard, Adaptive }
}

named! {
    /// What becomes of a connection on which a transient failure came.
    ReconnectMode { ReconnectOnTransientError, ReuseAllConnections }
}

named! {
    /// Where an identity came from.
    ChooseNote { Hit, Load, Uncached }
}

named! {
    /// The word that an array begins with.
    Tag {
        Chosen, Connector, Delay, Endpoint, Failed, Granted, Hook, Input, Layer, Loaded, NoAfter,
        NoQuota, Noted, Once, Operation, Other, Outcome, Output, Read, Request, Response,
        RetryIndicated, Timeout,
    }
}

/// A version of the retry behaviour's specification.
#[derive(Clone, Copy, Debug, PartialEq, Eq)]
pub enum SpecVersion {
    V2_0,
    V2_1,
}

impl SpecVersion {
    fn named(text: &str) -> Option<SpecVersion> {
        match text {
            "V2_0" => Some(SpecVersion::V2_0),
            "V2_1" => Some(SpecVersion::V2_1),
            _ => None,
        }
    }
}

impl Serialize for SpecVersion {
    fn serialize<S: Serializer>(&self, serializer: S) -> Result<S::Ok, S::Error> {
        serializer.serialize_str(match self {
            SpecVersion::V2_0 => "V2_0",
            SpecVersion::V2_1 => "V2_1",
        })
    }
}

impl<'de> Deserialize<'de> for SpecVersion {
    fn deserialize<D: Deserializer<'de>>(deserializer: D) -> Result<SpecVersion, D::Error> {
        read_name(deserializer, SpecVersion::named)
    }
}
