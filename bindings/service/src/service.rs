use crate::inside::Inside;
use crate::listening::Listening;
use crate::status::answered;
use kilambosetry::{Closed, Error, HybridCache};

/// What C has a pointer to.
pub struct Service {
    pub cache: HybridCache,
    pub listening: Listening,
    inside: Inside,
}

impl Service {
    pub fn new(cache: HybridCache) -> Service {
        Service { cache, listening: Listening::default(), inside: Inside::default() }
    }

    /// Makes a call, unless the cache is shut, and answers its status.
    pub fn call(&self, work: impl FnOnce(&HybridCache) -> Result<u8, Error>) -> u8 {
        answered(|| {
            let _call = self.inside.enter().ok_or(Error::Closed)?;
            work(&self.cache)
        })
    }

    /// Asks something that may be asked when the cache is shut, too.
    pub fn ask(&self, work: impl FnOnce(&HybridCache)) {
        answered(|| {
            let _call = self.inside.count();
            work(&self.cache);
            Ok(0)
        });
    }

    /// Ends the cache, keeps what it has where that is asked for, and waits for all that is under way.
    pub fn shut(&self) {
        let _ = self.shut_with(&[]);
    }

    /// The same with these bytes beside it, and answers what came of it; nothing, where it panicked.
    pub fn shut_with(&self, beside: &[u8]) -> Option<Closed> {
        self.inside.shut();
        let mut closed = None;
        answered(|| {
            closed = Some(self.cache.clone().close_with(beside));
            Ok(0)
        });
        self.inside.wait();
        closed
    }
}
