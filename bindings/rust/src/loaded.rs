/// What a load came to: a row, or that there is none; and for how many seconds that is kept (0: for good).
#[derive(Clone, Debug, PartialEq, Eq)]
#[non_exhaustive]
pub struct Loaded {
    /// The row.
    pub row: Option<Vec<u8>>,
    /// The seconds.
    pub ttl: u32,
}

impl Loaded {
    /// A row.
    #[must_use]
    pub fn row(row: impl Into<Vec<u8>>, ttl: u32) -> Loaded {
        Loaded { row: Some(row.into()), ttl }
    }

    /// There is none.
    #[must_use]
    pub fn absent(ttl: u32) -> Loaded {
        Loaded { row: None, ttl }
    }
}
