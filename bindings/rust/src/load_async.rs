use crate::lease::settled;
use crate::{HybridCache, LeaseAsync, LoadError, Loaded, Lookup, Value};
use std::fmt;
use std::future::Future;

impl HybridCache {
    /// As [`get_or_load`](HybridCache::get_or_load), for a load that is a future: of many tasks that miss a key at once one loads it,
    /// and the others wait for that, for [`patience`](crate::Options::patience) at most. Where the task that loads is dropped, the
    /// load has failed, and who waits for it is told ([`LoadError::Elsewhere`]).
    ///
    /// ```
    /// # use std::{future::Future, pin::pin, task::{Context, Poll, Waker}};
    /// # fn block_on<T>(future: impl Future<Output = T>) -> T {
    /// #     match pin!(future).poll(&mut Context::from_waker(Waker::noop())) {
    /// #         Poll::Ready(answer) => answer,
    /// #         Poll::Pending => panic!("it waits"),
    /// #     }
    /// # }
    /// use kilambosetry::{HybridCache, Options};
    /// use std::io;
    ///
    /// let cache = HybridCache::in_memory(&Options::default())?;
    /// let load = async || Ok::<_, io::Error>("Ada"); // from the database
    /// let row = block_on(cache.get_or_load_async(b"user:7", 3600, load))?;
    /// assert_eq!(&row[..], b"Ada");
    /// assert_eq!(cache.get(b"user:7")?.as_deref(), Some(&b"Ada"[..]));
    /// # Ok::<(), Box<dyn std::error::Error>>(())
    /// ```
    pub async fn get_or_load_async<V: Into<Vec<u8>>, E: fmt::Display, F: Future<Output = Result<V, E>>>(
        &self,
        key: &[u8],
        ttl: u32,
        load: impl FnOnce() -> F,
    ) -> Result<Value, LoadError<E>> {
        let lease = match LeaseAsync::new(self, key, false).await {
            Ok(Lookup::Hit(value)) => return Ok(value),
            Ok(Lookup::Failed(why)) => return Err(LoadError::Elsewhere(why)),
            Ok(Lookup::Miss(lease)) => Some(lease),
            Ok(Lookup::Absent) | Err(_) => None,
        };
        // (where the task is dropped, the lease is)
        let loaded = load().await.map(|row| Loaded::row(row, ttl));
        Ok(Value::from(settled(lease, loaded)?.row.unwrap_or_default()))
    }

    /// As [`find_or_load`](HybridCache::find_or_load), for a load that is a future.
    pub async fn find_or_load_async<E: fmt::Display, F: Future<Output = Result<Loaded, E>>>(
        &self,
        key: &[u8],
        load: impl FnOnce() -> F,
    ) -> Result<Option<Value>, LoadError<E>> {
        let lease = match self.get_or_lease_async(key).await {
            Ok(Lookup::Hit(value)) => return Ok(Some(value)),
            Ok(Lookup::Absent) => return Ok(None),
            Ok(Lookup::Failed(why)) => return Err(LoadError::Elsewhere(why)),
            Ok(Lookup::Miss(lease)) => Some(lease),
            Err(_) => None,
        };
        let loaded = load().await;
        Ok(settled(lease, loaded)?.row.map(Value::from))
    }
}
