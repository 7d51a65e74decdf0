//! Settings and layers of them.

use crate::array_of_fields;
use crate::names::{ReconnectMode, RetryMode, SpecVersion};
use crate::reading::{next, read_name, too_short};
use crate::text::{Blob, Text};
use serde::de::{DeserializeSeed, Error, SeqAccess, Visitor};
use serde::{Deserialize, Deserializer, Serialize, Serializer};
use std::fmt;
use std::rc::Rc;

/// Deadlines in nanoseconds. An absent one never passes.
#[derive(Clone, Copy, Debug)]
pub struct TimeoutConfig {
    pub connect: Option<u64>,
    pub read: Option<u64>,
    pub operation: Option<u64>,
    pub attempt: Option<u64>,
}

array_of_fields! { TimeoutConfig { connect, read, operation, attempt } }

/// Which specification of retries holds, and what it adds.
#[derive(Clone, Copy, Debug)]
pub struct RetrySpec {
    pub version: SpecVersion,
    pub long_polling: bool,
    /// In nanoseconds.
    pub non_throttling_initial_backoff: u64,
}

array_of_fields! { RetrySpec { version, long_polling, non_throttling_initial_backoff } }

/// How an operation is retried.
#[derive(Clone, Copy, Debug)]
pub struct RetryConfig {
    pub mode: RetryMode,
    pub max_attempts: u32,
    /// In nanoseconds.
    pub initial_backoff: u64,
    /// In nanoseconds.
    pub max_backoff: u64,
    pub reconnect: ReconnectMode,
    pub static_base: bool,
    pub spec: Option<RetrySpec>,
}

array_of_fields! {
    RetryConfig {
        mode, max_attempts, initial_backoff, max_backoff, reconnect, static_base, spec,
    }
}

/// Whether streams that stall are given up.
#[derive(Clone, Copy, Debug)]
pub struct StalledStreamProtectionConfig {
    pub upload: bool,
    pub download: bool,
    /// In nanoseconds.
    pub grace_period: u64,
}

array_of_fields! { StalledStreamProtectionConfig { upload, download, grace_period } }

/// What a setting is known by.
#[derive(Clone, Debug, PartialEq, Eq)]
pub enum SettingKey {
    Timeouts,
    Retry,
    Stall,
    LoadBody,
    Partition,
    Bucket,
    Prefix,
    Preference,
    V2,
    EndpointParams,
    AuthParams,
    EnforceLength,
    Disable,
    Capture,
    Poisoned,
    Upload,
    /// A setting of the caller's own, with its whole key: `user.` and a name.
    User(Text),
}

impl SettingKey {
    /// The key as it is printed.
    pub fn name(&self) -> &str {
        match self {
            SettingKey::Timeouts => "timeouts",
            SettingKey::Retry => "retry",
            SettingKey::Stall => "stall",
            SettingKey::LoadBody => "load_body",
            SettingKey::Partition => "partition",
            SettingKey::Bucket => "bucket",
            SettingKey::Prefix => "prefix",
            SettingKey::Preference => "preference",
            SettingKey::V2 => "v2",
            SettingKey::EndpointParams => "endpoint_params",
            SettingKey::AuthParams => "auth_params",
            SettingKey::EnforceLength => "enforce_length",
            SettingKey::Disable => "disable",
            SettingKey::Capture => "capture",
            SettingKey::Poisoned => "poisoned",
            SettingKey::Upload => "upload",
            SettingKey::User(key) => key.as_str(),
        }
    }

    fn named(text: &str) -> Option<SettingKey> {
        Some(match text {
            "timeouts" => SettingKey::Timeouts,
            "retry" => SettingKey::Retry,
            "stall" => SettingKey::Stall,
            "load_body" => SettingKey::LoadBody,
            "partition" => SettingKey::Partition,
            "bucket" => SettingKey::Bucket,
            "prefix" => SettingKey::Prefix,
            "preference" => SettingKey::Preference,
            "v2" => SettingKey::V2,
            "endpoint_params" => SettingKey::EndpointParams,
            "auth_params" => SettingKey::AuthParams,
            "enforce_length" => SettingKey::EnforceLength,
            "disable" => SettingKey::Disable,
            "capture" => SettingKey::Capture,
            "poisoned" => SettingKey::Poisoned,
            "upload" => SettingKey::Upload,
            _ if text.starts_with("user.") => SettingKey::User(Text::from(text)),
            _ => return None,
        })
    }
}

impl Serialize for SettingKey {
    fn serialize<S: Serializer>(&self, serializer: S) -> Result<S::Ok, S::Error> {
        serializer.serialize_str(self.name())
    }
}

impl<'de> Deserialize<'de> for SettingKey {
    fn deserialize<D: Deserializer<'de>>(deserializer: D) -> Result<SettingKey, D::Error> {
        read_name(deserializer, SettingKey::named)
    }
}

/// A setting's value.
#[derive(Clone, Debug)]
pub enum Setting {
    Timeouts(TimeoutConfig),
    Retry(RetryConfig),
    Stall(StalledStreamProtectionConfig),
    LoadBody(bool),
    Partition(Text),
    Bucket(u32),
    Prefix(Text),
    Preference(Vec<Text>),
    Disable(Vec<Text>),
    Capture(u64),
    Poisoned(u64),
    /// A key that is there or isn't.
    Mark,
    User(Blob),
}

impl Setting {
    // The value of a key.
    fn read<'de, D: Deserializer<'de>>(key: &SettingKey, value: D) -> Result<Setting, D::Error> {
        Ok(match key {
            SettingKey::Timeouts => Setting::Timeouts(Deserialize::deserialize(value)?),
            SettingKey::Retry => Setting::Retry(Deserialize::deserialize(value)?),
            SettingKey::Stall => Setting::Stall(Deserialize::deserialize(value)?),
            SettingKey::LoadBody => Setting::LoadBody(bool::deserialize(value)?),
            SettingKey::Partition => Setting::Partition(Text::deserialize(value)?),
            SettingKey::Bucket => Setting::Bucket(u32::deserialize(value)?),
            SettingKey::Prefix => Setting::Prefix(Text::deserialize(value)?),
            SettingKey::Preference => Setting::Preference(Vec::deserialize(value)?),
            SettingKey::Disable => Setting::Disable(Vec::deserialize(value)?),
            SettingKey::Capture => Setting::Capture(u64::deserialize(value)?),
            SettingKey::Poisoned => Setting::Poisoned(u64::deserialize(value)?),
            SettingKey::User(_) => Setting::User(Blob::deserialize(value)?),
            SettingKey::V2
            | SettingKey::EndpointParams
            | SettingKey::AuthParams
            | SettingKey::EnforceLength
            | SettingKey::Upload => read_mark(value)?,
        })
    }
}

// A mark's value is true.
fn read_mark<'de, D: Deserializer<'de>>(value: D) -> Result<Setting, D::Error> {
    if bool::deserialize(value)? {
        Ok(Setting::Mark)
    } else {
        Err(D::Error::custom("a mark is true"))
    }
}

impl Serialize for Setting {
    fn serialize<S: Serializer>(&self, serializer: S) -> Result<S::Ok, S::Error> {
        match self {
            Setting::Timeouts(timeouts) => timeouts.serialize(serializer),
            Setting::Retry(retry) => retry.serialize(serializer),
            Setting::Stall(stall) => stall.serialize(serializer),
            Setting::LoadBody(loads) => serializer.serialize_bool(*loads),
            Setting::Partition(text) | Setting::Prefix(text) => text.serialize(serializer),
            Setting::Bucket(number) => serializer.serialize_u32(*number),
            Setting::Preference(texts) | Setting::Disable(texts) => texts.serialize(serializer),
            Setting::Capture(number) | Setting::Poisoned(number) => {
                serializer.serialize_u64(*number)
            }
            Setting::Mark => serializer.serialize_bool(true),
            Setting::User(bytes) => bytes.serialize(serializer),
        }
    }
}

/// What a layer says of one key.
#[derive(Clone, Debug)]
pub struct LayerEntry {
    pub key: SettingKey,
    /// None hides what lower layers say.
    pub value: Option<Rc<Setting>>,
}

impl Serialize for LayerEntry {
    fn serialize<S: Serializer>(&self, serializer: S) -> Result<S::Ok, S::Error> {
        (&self.key, self.value.as_deref()).serialize(serializer)
    }
}

impl<'de> Deserialize<'de> for LayerEntry {
    fn deserialize<D: Deserializer<'de>>(deserializer: D) -> Result<LayerEntry, D::Error> {
        deserializer.deserialize_seq(EntryVisitor)
    }
}

struct EntryVisitor;

impl<'de> Visitor<'de> for EntryVisitor {
    type Value = LayerEntry;

    fn expecting(&self, f: &mut fmt::Formatter) -> fmt::Result {
        f.write_str("a key and its value")
    }

    fn visit_seq<A: SeqAccess<'de>>(self, mut items: A) -> Result<LayerEntry, A::Error> {
        let key = next(&mut items)?;
        let value = items.next_element_seed(ValueOf(&key))?;
        let value = value.ok_or_else(too_short)?;
        Ok(LayerEntry { key, value })
    }
}

// Reads the value of a key, or null.
struct ValueOf<'k>(&'k SettingKey);

impl<'de> DeserializeSeed<'de> for ValueOf<'_> {
    type Value = Option<Rc<Setting>>;

    fn deserialize<D: Deserializer<'de>>(self, deserializer: D) -> Result<Self::Value, D::Error> {
        deserializer.deserialize_option(self)
    }
}

impl<'de> Visitor<'de> for ValueOf<'_> {
    type Value = Option<Rc<Setting>>;

    fn expecting(&self, f: &mut fmt::Formatter) -> fmt::Result {
        f.write_str("a setting's value or null")
    }

    fn visit_none<E: Error>(self) -> Result<Self::Value, E> {
        Ok(None)
    }

    fn visit_unit<E: Error>(self) -> Result<Self::Value, E> {
        Ok(None)
    }

    fn visit_some<D: Deserializer<'de>>(self, value: D) -> Result<Self::Value, D::Error> {
        Ok(Some(Rc::new(Setting::read(self.0, value)?)))
    }
}

/// Settings by their keys, each key once, in the order in which they were first put.
#[derive(Clone, Debug, Default)]
pub struct Layer(Vec<LayerEntry>);

impl Layer {
    pub fn entries(&self) -> &[LayerEntry] {
        &self.0
    }

    pub fn is_empty(&self) -> bool {
        self.0.is_empty()
    }

    fn find(&self, key: &SettingKey) -> Option<&LayerEntry> {
        self.0.iter().find(|entry| entry.key == *key)
    }

    // Puts an entry in the place of its key's, or at the end.
    fn put(&mut self, entry: LayerEntry) {
        match self.0.iter_mut().find(|other| other.key == entry.key) {
            Some(other) => *other = entry,
            None => self.0.push(entry),
        }
    }
}

impl Serialize for Layer {
    fn serialize<S: Serializer>(&self, serializer: S) -> Result<S::Ok, S::Error> {
        self.0.serialize(serializer)
    }
}

impl<'de> Deserialize<'de> for Layer {
    fn deserialize<D: Deserializer<'de>>(deserializer: D) -> Result<Layer, D::Error> {
        deserializer.deserialize_seq(LayerVisitor)
    }
}

struct LayerVisitor;

impl<'de> Visitor<'de> for LayerVisitor {
    type Value = Layer;

    fn expecting(&self, f: &mut fmt::Formatter) -> fmt::Result {
        f.write_str("a layer, which names each key once")
    }

    fn visit_seq<A: SeqAccess<'de>>(self, mut items: A) -> Result<Layer, A::Error> {
        let mut layer = Layer::default();
        while let Some(entry) = items.next_element::<LayerEntry>()? {
            if layer.find(&entry.key).is_some() {
                return Err(A::Error::custom("a layer names each key once"));
            }
            layer.0.push(entry);
        }
        Ok(layer)
    }
}

#[derive(Clone, Debug, Default)]
struct Layers {
    pushed: Vec<Rc<Layer>>,
    state: Layer,
}

/// Layers of settings with a state layer above them. They are shared, and copied when written.
#[derive(Clone, Debug, Default)]
pub struct Settings(Rc<Layers>);

impl Settings {
    /// Puts the layer last below the state layer.
    pub fn push(&mut self, layer: &Rc<Layer>) {
        Rc::make_mut(&mut self.0).pushed.push(Rc::clone(layer));
    }

    /// Makes each key that the layer mentions stand so in the state layer.
    pub fn merge(&mut self, layer: &Layer) {
        if layer.is_empty() {
            return;
        }
        let state = &mut Rc::make_mut(&mut self.0).state;
        for entry in layer.entries() {
            state.put(entry.clone());
        }
    }

    /// The value of the last layer that mentions the key, the state layer being the last of all.
    pub fn load(&self, key: &SettingKey) -> Option<&Setting> {
        let layers = &*self.0;
        let in_pushed = || layers.pushed.iter().rev().find_map(|layer| layer.find(key));
        let entry = layers.state.find(key).or_else(in_pushed)?;
        entry.value.as_deref()
    }
}
