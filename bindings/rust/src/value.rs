use crate::{Held, Refused};
use std::fmt;
use std::ops::Deref;

/// A value that a [`HybridCache`](crate::HybridCache) found: a copy of its bytes, made behind the lock, since the library
/// lends none of its own. Or one that was loaded.
#[derive(Clone, PartialEq, Eq, Hash)]
pub struct Value(Vec<u8>);

impl Value {
    // A copy of what the library holds.
    pub(crate) fn of(mut held: Held) -> Result<Value, Refused> {
        held.try_to_vec().map(Value)
    }

    /// The bytes, without another copy.
    #[must_use]
    pub fn into_vec(self) -> Vec<u8> {
        self.0
    }
}

impl Deref for Value {
    type Target = [u8];

    fn deref(&self) -> &[u8] {
        &self.0
    }
}

impl AsRef<[u8]> for Value {
    fn as_ref(&self) -> &[u8] {
        self
    }
}

impl From<Vec<u8>> for Value {
    fn from(bytes: Vec<u8>) -> Value {
        Value(bytes)
    }
}

impl From<Value> for Vec<u8> {
    fn from(value: Value) -> Vec<u8> {
        value.0
    }
}

impl fmt::Debug for Value {
    fn fmt(&self, f: &mut fmt::Formatter<'_>) -> fmt::Result {
        write!(f, "\"{}\"", self.escape_ascii())
    }
}
