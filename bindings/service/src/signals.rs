//! Threads that are begun without signals: a service's are for its own threads.
#[cfg(target_os = "linux")]
pub use linux::without_signals;

/// Begins threads.
#[cfg(not(target_os = "linux"))]
pub fn without_signals<T>(begin: impl FnOnce() -> T) -> T {
    begin()
}

#[cfg(target_os = "linux")]
mod linux {
    use std::mem::MaybeUninit;
    use std::ptr;

    // (as large as that of any C library for Linux)
    #[repr(C, align(8))]
    struct Signals([u8; 128]);

    extern "C" {
        fn sigfillset(set: *mut Signals) -> i32;
        fn pthread_sigmask(how: i32, set: *const Signals, before: *mut Signals) -> i32;
    }

    #[cfg(any(target_arch = "mips", target_arch = "mips64"))]
    const SETMASK: i32 = 3;
    #[cfg(not(any(target_arch = "mips", target_arch = "mips64")))]
    const SETMASK: i32 = 2;

    /// Begins threads, which block all signals, as this one does meanwhile.
    pub fn without_signals<T>(begin: impl FnOnce() -> T) -> T {
        let _before = Before::block_all();
        begin()
    }

    // What the thread blocked before.
    struct Before(MaybeUninit<Signals>);

    impl Before {
        fn block_all() -> Before {
            let (mut all, mut before) = (MaybeUninit::uninit(), MaybeUninit::uninit());
            // SAFETY: the first call writes the one set, and the second reads that and writes the other: it is given a way of
            // setting that there is, and so doesn't fail.
            unsafe {
                sigfillset(all.as_mut_ptr());
                pthread_sigmask(SETMASK, all.as_ptr(), before.as_mut_ptr());
            }
            Before(before)
        }
    }

    impl Drop for Before {
        fn drop(&mut self) {
            // SAFETY: the set was written when this was made.
            unsafe { pthread_sigmask(SETMASK, self.0.as_ptr(), ptr::null_mut()) };
        }
    }
}
