//! How many heaps the process has.

/// Has glibc keep one heap (arena) for all threads of the process, and says whether it does. Over another C library nothing
/// changes, and `false` is answered.
///
/// Else each thread may have a heap of its own, up to eight a processor, and what one thread gives back no other takes: more is
/// resident then than [`Options`](crate::Options) print. It is the setting that `MALLOC_ARENA_MAX=1` in the environment makes.
/// It is the whole process's, so no cache makes it by itself. Heaps that there are stay: call it first in `main`.
///
/// ```
/// if !kilambosetry::share_one_heap() {
///     eprintln!("each thread may have a heap of its own");
/// }
/// ```
pub fn share_one_heap() -> bool {
    #[cfg(all(target_os = "linux", target_env = "gnu"))]
    {
        extern "C" {
            fn mallopt(parameter: i32, value: i32) -> i32;
        }
        // of glibc's malloc.h
        const M_ARENA_MAX: i32 = -8;
        // SAFETY: glibc's signature; it takes any two numbers
        unsafe { mallopt(M_ARENA_MAX, 1) == 1 }
    }
    #[cfg(not(all(target_os = "linux", target_env = "gnu")))]
    false
}
