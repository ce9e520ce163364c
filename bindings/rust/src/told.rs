use crate::held::copied;
use crate::Refused;
use std::collections::HashMap;
use std::fmt::{self, Write};
use std::sync::{PoisonError, RwLock};

/// What a load came to that isn't in the cache: what was loaded and isn't stored, or why nothing was.
#[derive(Debug)]
pub(crate) enum Told {
    Row(Vec<u8>),
    Failed(String),
}

impl Told {
    /// A failure, with its text. What there is no memory for is left out.
    pub fn failure(why: &dyn fmt::Display) -> Told {
        let mut text = Text(String::new());
        let _ = write!(text, "{why}");
        Told::Failed(text.0)
    }

    fn copy(&self) -> Result<Told, Refused> {
        match self {
            Told::Row(row) => copied(row).map(Told::Row),
            Told::Failed(text) => Ok(Told::failure(text)),
        }
    }
}

// A text that ends where there is no memory for more.
struct Text(String);

impl Write for Text {
    fn write_str(&mut self, more: &str) -> fmt::Result {
        self.0.try_reserve(more.len()).map_err(|_| fmt::Error)?;
        self.0.push_str(more);
        Ok(())
    }
}

/// What loads came to, as long as somebody who waited for them hasn't seen it, by their shards and numbers. It is copied with no
/// shard locked.
#[derive(Debug, Default)]
pub(crate) struct Tellings(RwLock<HashMap<(usize, u64), Told>>);

impl Tellings {
    /// Notes what the load came to.
    pub fn tell(&self, load: (usize, u64), told: Told) -> Result<(), Refused> {
        let mut all = self.0.write().unwrap_or_else(PoisonError::into_inner);
        all.try_reserve(1).map_err(|_| Refused::NO_MEMORY)?;
        all.insert(load, told);
        Ok(())
    }

    /// What the load came to.
    pub fn read(&self, load: (usize, u64)) -> Option<Told> {
        let all = self.0.read().unwrap_or_else(PoisonError::into_inner);
        all.get(&load)?.copy().ok()
    }

    /// What the load came to, for the last one who asks.
    pub fn take(&self, load: (usize, u64)) -> Option<Told> {
        self.0.write().unwrap_or_else(PoisonError::into_inner).remove(&load)
    }
}
