use crate::lease::settled;
use crate::namespace::{Generation, Head};
use crate::{Error, LoadError, Loaded, Lookup, Namespace, Value};
use std::fmt;
use std::future::Future;

/// The same for tasks, for any executor.
impl Namespace {
    /// As [`HybridCache::get_async`](crate::HybridCache::get_async).
    ///
    /// ```
    /// # use std::{future::Future, pin::pin, task::{Context, Poll, Waker}};
    /// # fn block_on<T>(future: impl Future<Output = T>) -> T {
    /// #     match pin!(future).poll(&mut Context::from_waker(Waker::noop())) {
    /// #         Poll::Ready(answer) => answer,
    /// #         Poll::Pending => panic!("it waits"),
    /// #     }
    /// # }
    /// use kilambosetry::{HybridCache, Loaded, Options};
    /// use std::io;
    ///
    /// let cache = HybridCache::in_memory(&Options::default())?;
    /// let users = cache.namespace("users")?;
    /// let load = async || Ok::<_, io::Error>(Loaded::row("Ada", 3600)); // from the database
    /// let row = block_on(users.find_or_load_async(b"7", load))?;
    /// assert_eq!(row.as_deref(), Some(&b"Ada"[..]));
    /// assert_eq!(block_on(users.get_async(b"7"))?, row);
    /// users.clear();
    /// assert!(block_on(users.get_async(b"7"))?.is_none());
    /// # Ok::<(), Box<dyn std::error::Error>>(())
    /// ```
    pub async fn get_async(&self, key: &[u8]) -> Result<Option<Value>, Error> {
        let Some(generation) = self.generation_now_async().await? else { return Ok(None) };
        let found = self.cache.get_async(self.key_of(key).key()).await?;
        Ok(self.fresh_row(found, generation))
    }

    /// As [`HybridCache::get_or_lease_async`](crate::HybridCache::get_or_lease_async).
    pub async fn get_or_lease_async(&self, key: &[u8]) -> Result<Lookup, Error> {
        let room = self.key_of(key);
        loop {
            let generation = self.generation_async().await?;
            let found = self.cache.get_or_lease_async(room.key()).await?;
            if let Some(lookup) = self.told(found, Head { generation, grace: 0 }) {
                return Ok(lookup);
            }
            let now = self.generation_now_async().await?;
            self.remove_other(&room, generation, now)?;
        }
    }

    /// As [`HybridCache::find_or_load_async`](crate::HybridCache::find_or_load_async).
    pub async fn find_or_load_async<E: fmt::Display, F: Future<Output = Result<Loaded, E>>>(
        &self,
        key: &[u8],
        load: impl FnOnce() -> F,
    ) -> Result<Option<Value>, LoadError<E>> {
        let lease = match self.get_or_lease_async(key).await {
            Ok(Lookup::Hit(value)) => return Ok(Some(value)),
            Ok(Lookup::Absent) => return Ok(None),
            Ok(Lookup::Failed(why)) => return Err(LoadError::Elsewhere(why)),
            Ok(Lookup::Miss(lease)) => Some(lease),
            Err(_) => None,
        };
        let loaded = load().await;
        Ok(settled(lease, loaded)?.row.map(Value::from))
    }

    async fn generation_now_async(&self) -> Result<Option<Generation>, Error> {
        let found = self.cache.get_async(self.key_of_generation().key()).await?;
        Ok(found.and_then(|found| found[..].try_into().ok()))
    }

    async fn generation_async(&self) -> Result<Generation, Error> {
        if let Some(generation) = self.generation_now_async().await? {
            return Ok(generation);
        }
        let lookup = self.cache.get_or_lease_async(self.key_of_generation().key()).await?;
        self.generation_of(lookup)
    }
}
