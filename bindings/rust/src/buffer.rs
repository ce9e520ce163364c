use crate::held::zeros;
use std::cell::Cell;

// Direct operations want buffers that begin at a multiple of this.
const ALIGNED: usize = 4096;

thread_local! {
    static SPARE: Cell<Vec<u8>> = const { Cell::new(Vec::new()) };
}

/// Lends a page's buffer, which the thread keeps for the next time; none, where there is no memory for it.
pub(crate) fn with_page<T>(bytes: usize, work: impl FnOnce(&mut [u8]) -> T) -> Option<T> {
    let mut spare = SPARE.try_with(Cell::take).unwrap_or_default();
    if spare.len() < bytes + ALIGNED {
        drop(spare);
        spare = zeros(bytes + ALIGNED).ok()?;
    }
    let from = spare.as_ptr().align_offset(ALIGNED);
    let answer = work(spare.get_mut(from..from + bytes)?);
    let _ = SPARE.try_with(|kept| kept.set(spare));
    Some(answer)
}
