use crate::lease::settled;
use crate::namespace::{Generation, Head, Room, Row};
use crate::{Error, Lease, LoadError, Loaded, Lookup, Namespace, Value};
use std::fmt;

/// How rows of a namespace are loaded anew while the one that is there is still answered: [`Namespace::find_or_refresh`].
#[derive(Clone, Copy, Debug, Default, PartialEq, Eq)]
pub struct Refresh {
    /// So many seconds before its time to live is over a row is loaded anew by one of those who find it: refresh ahead. With 0 not
    /// before.
    pub ahead: u32,
    /// So many seconds behind that a row is still answered, as a stale one, while one of those who find it loads it anew:
    /// stale-while-revalidate. With 0 never.
    pub stale_for: u32,
}

/// What a get comes to that may answer a row whose time to live is over: [`Namespace::get_or_refresh`].
#[derive(Debug)]
#[must_use]
pub enum Aged {
    /// The row.
    Fresh(Value),
    /// The row, whose time to live is nearly over. Load it anew now, or later by another thread, and store it by the lease.
    Due(Value, Lease),
    /// The row, whose time to live is over. Whoever has the lease loads it anew; without one another does.
    Stale(Value, Option<Lease>),
    /// It is known that there is no such row.
    Absent,
    /// There is none. Load it now, and store it by the lease.
    Miss(Lease),
    /// Another loaded it meanwhile, and its load failed: why.
    Failed(String),
}

/// A row, or that there is none, and how old that is.
#[derive(Clone, Debug, PartialEq, Eq)]
#[non_exhaustive]
pub struct Served {
    /// The row.
    pub row: Option<Value>,
    /// Whether its time to live is over.
    pub is_stale: bool,
}

/// Rows that are loaded anew before they are gone.
///
/// What is answered so, also as a stale one, is what the key was told last: who deletes the key, changes its row, or clears the
/// namespace takes it away, and a row that is being changed, or of which a commit is in doubt, isn't answered once its time to live is
/// over, nor loaded anew before. So a row is answered late only where nobody has told of a change: for so long a change that the cache
/// isn't told of may stay unseen, which is `ttl` and `stale_for` together.
///
/// A row is kept in the cache for that long, and is a miss to the namespace's other calls once its time to live is over. It has to be
/// stored by one of the calls here: what others store is kept for its time to live.
impl Namespace {
    /// As [`find_or_load`](Namespace::find_or_load), and a row whose time to live is over, or nearly, is loaded anew by one caller, while
    /// all others are answered it at once. Where that load fails, its caller is answered the row too, and the next one loads.
    ///
    /// ```
    /// use kilambosetry::{Clock, HybridCache, Loaded, Options, Refresh};
    /// use std::io;
    /// # use std::sync::atomic::{AtomicU64, Ordering::SeqCst};
    /// # let second = std::sync::Arc::new(AtomicU64::new(1));
    /// # let hand = second.clone();
    /// # let clock = Clock::new(move || hand.load(SeqCst));
    ///
    /// # let options = Options { clock, ..Options::default() };
    /// let cache = HybridCache::in_memory(&options)?;
    /// let users = cache.namespace(b"users")?;
    /// let refresh = Refresh { ahead: 5, stale_for: 30 };
    /// users.find_or_refresh(b"7", &refresh, || Ok::<_, io::Error>(Loaded::row("Ada", 60)))?;
    /// # second.store(62, SeqCst);
    /// // a minute later, while the database is down
    /// let served = users.find_or_refresh(b"7", &refresh, || Err::<Loaded, _>(io::Error::other("it is down")))?;
    /// assert_eq!(served.row.as_deref(), Some(&b"Ada"[..]));
    /// assert!(served.is_stale);
    /// # Ok::<(), Box<dyn std::error::Error>>(())
    /// ```
    pub fn find_or_refresh<E: fmt::Display>(
        &self,
        key: &[u8],
        refresh: &Refresh,
        load: impl FnOnce() -> Result<Loaded, E>,
    ) -> Result<Served, LoadError<E>> {
        let (had_row, lease) = match self.get_or_refresh(key, refresh) {
            Ok(Aged::Fresh(row)) => return Ok(Served { row: Some(row), is_stale: false }),
            Ok(Aged::Stale(row, None)) => return Ok(Served { row: Some(row), is_stale: true }),
            Ok(Aged::Absent) => return Ok(Served { row: None, is_stale: false }),
            Ok(Aged::Failed(why)) => return Err(LoadError::Elsewhere(why)),
            Ok(Aged::Due(_, lease) | Aged::Stale(_, Some(lease))) => (true, Some(lease)),
            Ok(Aged::Miss(lease)) => (false, Some(lease)),
            Err(_) => (false, None),
        };
        match settled(lease, load()) {
            Ok(loaded) => Ok(Served { row: loaded.row.map(Value::from), is_stale: false }),
            // (it may have been taken away meanwhile)
            Err(error) => self.still(key, refresh).filter(|_| had_row).ok_or(error),
        }
    }

    // The row that is still to be answered, where the load of another has failed.
    fn still(&self, key: &[u8], refresh: &Refresh) -> Option<Served> {
        let (row, is_stale) = self.found(&self.key_of(key), self.generation().ok()?, refresh).ok()??;
        Some(Served { row: Some(row.value), is_stale })
    }

    /// The row, with a lease for who is to load it anew; or as [`get_or_lease`](Namespace::get_or_lease). Who is handed a lease together
    /// with a row may answer that at once, and load in another thread or task: the lease can be sent there.
    pub fn get_or_refresh(&self, key: &[u8], refresh: &Refresh) -> Result<Aged, Error> {
        if let Some(aged) = self.aged(key, refresh)? {
            return Ok(aged);
        }
        Ok(match self.look(key, refresh.stale_for, true)? {
            Lookup::Hit(row) => Aged::Fresh(row),
            Lookup::Absent => Aged::Absent,
            Lookup::Miss(lease) => Aged::Miss(lease),
            Lookup::Failed(why) => Aged::Failed(why),
        })
    }

    // The row that is there, with a lease for one of those who find it once it is due.
    fn aged(&self, key: &[u8], refresh: &Refresh) -> Result<Option<Aged>, Error> {
        let (room, generation) = (self.key_of(key), self.generation()?);
        let Some((Row { value, due }, is_stale)) = self.found(&room, generation, refresh)? else { return Ok(None) };
        if !is_stale && self.now().saturating_add(refresh.ahead.into()) < due {
            return Ok(Some(Aged::Fresh(value)));
        }
        let mut lease = self.cache.lease_anew(room.key())?;
        if let Some(lease) = &mut lease {
            lease.head = Some(Head { generation, grace: refresh.stale_for });
        }
        Ok(Some(match (is_stale, lease) {
            (true, lease) => Aged::Stale(value, lease),
            (false, Some(lease)) => Aged::Due(value, lease),
            (false, None) => Aged::Fresh(value),
        }))
    }

    // The row that is there and may be answered, and whether its time to live is over.
    fn found(&self, room: &Room, generation: Generation, refresh: &Refresh) -> Result<Option<(Row, bool)>, Error> {
        let found = self.cache.get(room.key())?.and_then(|value| self.row(value, generation));
        let Some(row) = found.filter(|row| !self.is_absent(&row.value)) else { return Ok(None) };
        let now = self.now();
        let is_stale = now >= row.due;
        let is_gone = now >= row.due.saturating_add(refresh.stale_for.into());
        if is_stale && (is_gone || self.cache.is_barred(room.key())?) {
            return Ok(None);
        }
        Ok(Some((row, is_stale)))
    }
}
