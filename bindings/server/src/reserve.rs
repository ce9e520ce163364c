//! The program's heap: the system's, with a reserve for small pieces that it refuses. A key's lock, the task of a connection, what
//! `tokio` keeps of it: who asks for those can't be told that there are none, and the process would end.
//!
//! What is large, or may be refused, is refused as ever, so that clients are told; but nothing ends while this lasts. A piece goes
//! back to it as it is freed.
use std::alloc::{GlobalAlloc, Layout, System};
use std::cell::UnsafeCell;
use std::ptr;
use std::sync::{Mutex, PoisonError};

/// The longest piece, in bytes, and its alignment.
const PIECE: usize = 16 * 1024;
/// How many there are: 16 MiB, of which pages are resident once they have been used.
const PIECES: usize = 1024;
/// The last quarter of them is for pieces of so many bytes at most: a key's lock, a row of `stats`.
const SHORT: usize = 1024;
/// The quarter before it is for those of so many at most: the task of a connection that was let in, or the first table of those that a
/// thread has. Longer ones may be refused, and who asks whether there is memory asks for a longer one.
const MIDDLE: usize = 12 * 1024;

/// The system's heap, and the reserve.
#[derive(Debug)]
pub struct Reserved {
    arena: Arena,
    // (a lock of Linux takes no memory itself)
    free: Mutex<Free>,
}

#[repr(C, align(16384))]
#[derive(Debug)]
struct Arena(UnsafeCell<[[u8; PIECE]; PIECES]>);

// How many pieces may be in use once one of so many bytes is.
const fn most(size: usize) -> usize {
    if size <= SHORT {
        PIECES
    } else if size <= MIDDLE {
        PIECES / 4 * 3
    } else {
        PIECES / 2
    }
}

// The pieces that nobody has.
#[derive(Debug)]
struct Free {
    // how many are handed out
    used: usize,
    // from this one on none was ever handed out
    fresh: usize,
    // the last that was given back, whose first bytes are the address of the one before; null: there is none
    last: *mut u8,
}

// SAFETY: a piece is of the one who was handed it, and the list of the others is used under a lock.
unsafe impl Sync for Reserved {}

impl Reserved {
    /// The whole reserve.
    pub const fn new() -> Reserved {
        let free = Free { used: 0, fresh: 0, last: ptr::null_mut() };
        Reserved { arena: Arena(UnsafeCell::new([[0; PIECE]; PIECES])), free: Mutex::new(free) }
    }

    // A piece for this layout. Null: it is too long, or all are in use.
    fn take(&self, layout: Layout) -> *mut u8 {
        if layout.size() > PIECE || layout.align() > PIECE {
            return ptr::null_mut();
        }
        let mut free = self.free.lock().unwrap_or_else(PoisonError::into_inner);
        if free.used >= most(layout.size()) {
            return ptr::null_mut();
        }
        free.used += 1;
        if !free.last.is_null() {
            let piece = free.last;
            // SAFETY: it was given back, and begins with the address of the one before since then.
            free.last = unsafe { piece.cast::<*mut u8>().read() };
            return piece;
        }
        free.fresh += 1;
        // SAFETY: it lies within the arena: as many are fresh as are used by now, and no more than there are.
        unsafe { self.start().add((free.fresh - 1) * PIECE) }
    }

    // Takes a piece back.
    fn give_back(&self, piece: *mut u8) {
        let mut free = self.free.lock().unwrap_or_else(PoisonError::into_inner);
        // SAFETY: whoever had it has freed it, and it is aligned and long enough for an address.
        unsafe { piece.cast::<*mut u8>().write(free.last) };
        free.last = piece;
        free.used -= 1;
    }

    fn start(&self) -> *mut u8 {
        self.arena.0.get().cast()
    }

    fn has(&self, block: *mut u8) -> bool {
        (block as usize).wrapping_sub(self.start() as usize) < PIECE * PIECES
    }

    // Moves a block to where its new layout has room. Null: there is none, and it stays.
    unsafe fn moved(&self, block: *mut u8, layout: Layout, new: Layout) -> *mut u8 {
        let to = if self.has(block) { System.alloc(new) } else { self.take(new) };
        if !to.is_null() {
            ptr::copy_nonoverlapping(block, to, layout.size().min(new.size()));
            self.dealloc(block, layout);
        }
        to
    }
}

// SAFETY: a block is the system's, or a piece of the arena that nobody else has, aligned and as long as was asked for; which of the two
// it is its address tells, so that it goes back to where it is from.
unsafe impl GlobalAlloc for Reserved {
    unsafe fn alloc(&self, layout: Layout) -> *mut u8 {
        let block = System.alloc(layout);
        if block.is_null() {
            self.take(layout)
        } else {
            block
        }
    }

    unsafe fn alloc_zeroed(&self, layout: Layout) -> *mut u8 {
        let block = System.alloc_zeroed(layout);
        if !block.is_null() {
            return block;
        }
        let piece = self.take(layout);
        if !piece.is_null() {
            piece.write_bytes(0, layout.size());
        }
        piece
    }

    unsafe fn dealloc(&self, block: *mut u8, layout: Layout) {
        if self.has(block) {
            self.give_back(block);
        } else {
            System.dealloc(block, layout);
        }
    }

    unsafe fn realloc(&self, block: *mut u8, layout: Layout, size: usize) -> *mut u8 {
        let new = Layout::from_size_align_unchecked(size, layout.align());
        if self.has(block) {
            return if size <= PIECE { block } else { self.moved(block, layout, new) };
        }
        let longer = System.realloc(block, layout, size);
        if longer.is_null() {
            self.moved(block, layout, new)
        } else {
            longer
        }
    }
}

#[cfg(test)]
mod tests {
    use super::*;

    static RESERVE: Reserved = Reserved::new();

    fn layout(size: usize, align: usize) -> Layout {
        Layout::from_size_align(size, align).unwrap()
    }

    // One test, since there is one reserve.
    #[test]
    fn small_pieces_are_handed_out_once_and_come_back() {
        assert!(RESERVE.take(layout(PIECE + 1, 1)).is_null() && RESERVE.take(layout(1, 2 * PIECE)).is_null());
        let mut pieces = taken(PIECES / 2, layout(PIECE, PIECE));
        assert!(RESERVE.take(layout(MIDDLE + 1, 1)).is_null(), "long ones leave none to shorter ones");
        pieces.extend(taken(PIECES / 4, layout(MIDDLE, 1)));
        assert!(RESERVE.take(layout(SHORT + 1, 1)).is_null(), "they leave none to short ones");
        pieces.extend(taken(PIECES / 4, layout(SHORT, 1)));
        assert!(RESERVE.take(layout(1, 1)).is_null(), "there are more than there are");
        assert!(pieces.iter().all(|piece| RESERVE.has(*piece) && (*piece as usize).is_multiple_of(PIECE)));
        pieces.sort();
        pieces.dedup();
        assert_eq!(pieces.len(), PIECES);
        for (number, piece) in pieces.iter().enumerate() {
            // SAFETY: each is this test's.
            unsafe { piece.write_bytes(number as u8, PIECE) };
        }
        for (number, piece) in pieces.iter().enumerate() {
            // SAFETY: as above.
            unsafe {
                assert_eq!((piece.read(), piece.add(PIECE - 1).read()), (number as u8, number as u8));
                RESERVE.dealloc(*piece, layout(SHORT, 1));
            }
        }
        taken(PIECES, layout(8, 8)).into_iter().for_each(|piece| RESERVE.give_back(piece));
        a_block_keeps_its_bytes_as_it_moves();
    }

    fn taken(count: usize, layout: Layout) -> Vec<*mut u8> {
        let pieces: Vec<_> = (0..count).map(|_| RESERVE.take(layout)).collect();
        assert!(pieces.iter().all(|piece| !piece.is_null()));
        pieces
    }

    fn a_block_keeps_its_bytes_as_it_moves() {
        let (small, large) = (layout(100, 8), layout(3 * PIECE, 8));
        // SAFETY: each block is this test's, with the layout that it has just then.
        unsafe {
            let piece = RESERVE.take(small);
            piece.write_bytes(7, 100);
            assert_eq!(RESERVE.realloc(piece, small, PIECE), piece);
            let moved = RESERVE.realloc(piece, layout(PIECE, 8), large.size());
            assert!(!RESERVE.has(moved) && (moved.read(), moved.add(99).read()) == (7, 7));
            assert_eq!(RESERVE.take(small), piece, "it wasn't given back");
            // (as where the system refuses it)
            let back = RESERVE.moved(moved, large, small);
            assert!(RESERVE.has(back) && (back.read(), back.add(99).read()) == (7, 7));
            RESERVE.dealloc(back, small);
            RESERVE.dealloc(piece, small);
        }
    }
}
