use crate::Refused;
use std::alloc::{self, Layout};
use std::marker::PhantomData;
use std::ops::Deref;
use std::process;
use std::ptr::NonNull;
use std::sync::atomic::{AtomicUsize, Ordering};

/// A box, or a refusal. (`Box::new` ends the process where it is out of memory.)
pub(crate) fn boxed<T>(value: T) -> Result<Box<T>, Refused> {
    let layout = Layout::new::<T>();
    if layout.size() == 0 {
        return Ok(Box::new(value)); // (which takes no memory)
    }
    // SAFETY: the layout has a size.
    let at = unsafe { alloc::alloc(layout) }.cast::<T>();
    if at.is_null() {
        return Err(Refused::NO_MEMORY);
    }
    // SAFETY: the place was allocated for a `T` just now, by the allocator that a box has.
    unsafe {
        at.write(value);
        Ok(Box::from_raw(at))
    }
}

/// What several handles share, as by an `Arc`, but that it can be refused.
pub(crate) struct Shared<T> {
    at: NonNull<Counted<T>>,
    owns: PhantomData<Counted<T>>,
}

struct Counted<T> {
    handles: AtomicUsize,
    value: T,
}

// SAFETY: a thread that has a handle may read the value, and drops it if its handle is the last.
unsafe impl<T: Send + Sync> Send for Shared<T> {}
// SAFETY: as above: a handle that is shared may be cloned.
unsafe impl<T: Send + Sync> Sync for Shared<T> {}

impl<T> Shared<T> {
    pub fn new(value: T) -> Result<Shared<T>, Refused> {
        let counted = boxed(Counted { handles: AtomicUsize::new(1), value })?;
        Ok(Shared { at: NonNull::from(Box::leak(counted)), owns: PhantomData })
    }

    fn counted(&self) -> &Counted<T> {
        // SAFETY: it is freed with the last handle, and this is one.
        unsafe { self.at.as_ref() }
    }
}

impl<T> Clone for Shared<T> {
    fn clone(&self) -> Shared<T> {
        let before = self.counted().handles.fetch_add(1, Ordering::Relaxed);
        if before > isize::MAX as usize {
            process::abort(); // (so many were leaked: the count must not begin anew)
        }
        Shared { at: self.at, owns: PhantomData }
    }
}

impl<T> Drop for Shared<T> {
    fn drop(&mut self) {
        // (what other threads did by their handles comes before the value's end)
        if self.counted().handles.fetch_sub(1, Ordering::AcqRel) == 1 {
            // SAFETY: it was a box, and this was the last handle.
            drop(unsafe { Box::from_raw(self.at.as_ptr()) });
        }
    }
}

impl<T> Deref for Shared<T> {
    type Target = T;

    fn deref(&self) -> &T {
        &self.counted().value
    }
}

#[cfg(test)]
mod tests {
    use super::*;
    use std::sync::Mutex;
    use std::thread;

    struct Ends<'a>(Mutex<u32>, &'a AtomicUsize);

    impl Drop for Ends<'_> {
        fn drop(&mut self) {
            assert_eq!(*self.0.get_mut().unwrap(), 8000); // (what all threads did)
            self.1.fetch_add(1, Ordering::SeqCst);
        }
    }

    #[test]
    fn what_is_shared_ends_once_with_its_last_handle() {
        let ended = AtomicUsize::new(0);
        let shared = Shared::new(Ends(Mutex::new(0), &ended)).unwrap();
        thread::scope(|scope| {
            for _ in 0..8 {
                let of_thread = shared.clone();
                scope.spawn(move || {
                    for _ in 0..1000 {
                        let handle = of_thread.clone();
                        *handle.0.lock().unwrap() += 1;
                    }
                });
            }
            drop(shared);
        });
        assert_eq!(ended.load(Ordering::SeqCst), 1);
    }

    #[test]
    fn a_box_has_what_it_was_given() {
        #[repr(align(128))]
        struct Aligned(u8);
        let aligned = boxed(Aligned(7)).unwrap();
        assert_eq!((aligned.0, &raw const *aligned as usize % 128), (7, 0));
        assert_eq!(*boxed(()).unwrap(), ());
        assert_eq!(*boxed("text".to_string()).unwrap(), "text");
    }
}
