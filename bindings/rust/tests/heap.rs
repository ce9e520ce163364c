//! One heap for all threads. (A program of its own, without the test harness, whose threads would have heaps by then.)
use kilambosetry::share_one_heap;
use std::hint::black_box;
use std::sync::Barrier;
use std::{fs, thread};

const THREADS: usize = 8;

/// The addresses of the heap that grows from the program's end, which is glibc's first.
fn first_heap() -> (usize, usize) {
    let maps = fs::read_to_string("/proc/self/maps").expect("Linux tells its mappings");
    let line = maps.lines().find(|line| line.ends_with("[heap]")).expect("there is a heap");
    let (begin, end) = line.split_whitespace().next().and_then(|both| both.split_once('-')).expect("two addresses");
    let number = |word| usize::from_str_radix(word, 16).expect("an address");
    (number(begin), number(end))
}

fn main() {
    let is_shared = share_one_heap();
    assert_eq!(is_shared, cfg!(all(target_os = "linux", target_env = "gnu")), "glibc takes the setting");
    if !is_shared {
        return println!("skipped: no glibc");
    }
    let all = Barrier::new(THREADS);
    // (blocks that are too long for a thread's own list of free ones, and too short to be mapped by themselves)
    let allocate = || {
        let block = black_box(vec![1u8; 20_000]);
        all.wait();
        block
    };
    // (they are held until the heap is looked at, which shrinks where its end is free)
    let blocks: Vec<Vec<u8>> = thread::scope(|scope| {
        let threads: Vec<_> = (0..THREADS).map(|_| scope.spawn(allocate)).collect();
        threads.into_iter().map(|one| one.join().expect("no thread panics")).collect()
    });
    let (begin, end) = first_heap();
    let places: Vec<usize> = blocks.iter().map(|block| block.as_ptr() as usize).collect();
    assert!(places.iter().all(|place| (begin..end).contains(place)), "{places:x?} aren't all in {begin:x}..{end:x}");
    println!("{THREADS} threads, one heap");
}
