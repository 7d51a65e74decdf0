//! Random numbers, for seeds and for texts that stand in for something.

use std::collections::hash_map::RandomState;
use std::hash::{BuildHasher, Hasher};

/// A random number. The standard library has a key from the system for each thread, and makes
/// another hash of it each time.
pub(crate) fn word() -> u64 {
    RandomState::new().build_hasher().finish()
}

/// Thirty-two random digits of hex.
pub(crate) fn digits() -> String {
    format!("{:016x}{:016x}", word(), word())
}
