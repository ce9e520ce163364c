//! The server where memory is refused: what can't be stored or deleted isn't found, and nothing ends the process. The library's
//! allocations are told from those of Rust by the call: it calls `malloc` and `realloc`, which stand here.
#![cfg(all(target_os = "linux", target_env = "gnu"))]
mod support;

use std::alloc::{GlobalAlloc, Layout};
use std::ffi::c_void;
use std::future::Future;
use std::io::{self, BufRead, BufReader, ErrorKind, Write};
use std::net::TcpStream;
use std::pin::{pin, Pin};
use std::ptr;
use std::sync::atomic::{AtomicBool, AtomicUsize, Ordering::SeqCst};
use std::sync::Mutex;
use std::task::{Context, Poll, Waker};
use support::{fill, in_memory, over, Client, Hanging};

extern "C" {
    fn __libc_malloc(size: usize) -> *mut c_void;
    fn __libc_realloc(block: *mut c_void, size: usize) -> *mut c_void;
    fn __libc_memalign(align: usize, size: usize) -> *mut c_void;
    fn free(block: *mut c_void);
}

// Whether the library is refused all memory.
static REFUSES: AtomicBool = AtomicBool::new(false);
// How many large allocations of Rust are made until one is refused; none is, where it is 0.
static UNTIL: AtomicUsize = AtomicUsize::new(0);
const LARGE: usize = 30_000;
// The tests run one after the other, since they share these.
static ALONE: Mutex<()> = Mutex::new(());

#[no_mangle]
unsafe extern "C" fn malloc(size: usize) -> *mut c_void {
    if REFUSES.load(SeqCst) {
        return ptr::null_mut();
    }
    __libc_malloc(size)
}

#[no_mangle]
unsafe extern "C" fn realloc(block: *mut c_void, size: usize) -> *mut c_void {
    if REFUSES.load(SeqCst) {
        return ptr::null_mut();
    }
    __libc_realloc(block, size)
}

struct Rust;

// SAFETY: blocks are those of the system's C library, with the alignment that is asked for.
unsafe impl GlobalAlloc for Rust {
    unsafe fn alloc(&self, layout: Layout) -> *mut u8 {
        if layout.size() >= LARGE && UNTIL.fetch_update(SeqCst, SeqCst, |left| left.checked_sub(1)) == Ok(1) {
            return ptr::null_mut();
        }
        __libc_memalign(layout.align().max(16), layout.size()).cast()
    }

    unsafe fn dealloc(&self, block: *mut u8, _: Layout) {
        free(block.cast());
    }
}

#[global_allocator]
static RUST: Rust = Rust;

#[test]
fn a_key_whose_delete_was_refused_is_a_miss_until_one_is_answered() {
    let _alone = ALONE.lock().unwrap();
    let running = over(&Hanging::default(), &[]);
    fill(&running, 400);
    let mut client = Client::of(&running);
    for (key, refused) in [("key0", "delete key0\r\n"), ("key1", "set key1 0 0 3\r\nnew\r\n"), ("key2", "md key2\r\n")]
    {
        assert!(client.value(key).is_some(), "{key}");
        REFUSES.store(true, SeqCst);
        let answer = client.ask(refused);
        REFUSES.store(false, SeqCst);
        assert!(answer.starts_with("SERVER_ERROR out of memory"), "{refused}: {answer}");
        assert_eq!(client.value(key), None, "what {refused} was to end");
        assert_eq!(client.ask(&format!("incr {key} 1\r\n")), "NOT_FOUND");
        assert_eq!(client.ask(&format!("set {key} 0 0 3\r\nnew\r\n")), "STORED");
        assert_eq!(client.value(key).as_deref(), Some("new"));
    }
    assert!(running.stop());
}

// Does what `does` does, and refuses it one large allocation: the first, then the second, until there is none more. How many there were.
fn each_refused(mut does: impl FnMut()) -> usize {
    for refused in 1.. {
        UNTIL.store(refused, SeqCst);
        does();
        if UNTIL.swap(0, SeqCst) > 0 {
            return refused - 1;
        }
    }
    unreachable!()
}

#[test]
fn no_allocation_of_a_size_that_a_client_chooses_ends_the_process() {
    let _alone = ALONE.lock().unwrap();
    let running = in_memory(&[]);
    let (long, longer) = ("x".repeat(300_000), "y".repeat(300_000));
    let number = format!("7{}", " ".repeat(299_999));
    let mut client = Client::of(&running);
    for (stored, command, least) in [
        ("old", format!("set key 0 0 300000\r\n{long}\r\n"), 2),
        ("old", format!("ms key 300000\r\n{long}\r\n"), 2),
        (&long, format!("append key 0 0 300000\r\n{longer}\r\n"), 2),
        (&long, "get key\r\n".to_string(), 1),
        (&long, "mg key v\r\n".to_string(), 1),
        (&number, "incr key 1\r\n".to_string(), 2),
        (&number, "ma key D1\r\n".to_string(), 2),
        (&long, format!("get {} key\r\n", "none ".repeat(12_000)), 2),
    ] {
        let refused = each_refused(|| {
            let until = UNTIL.swap(0, SeqCst);
            assert_eq!(client.ask(&format!("set key 0 0 {}\r\n{stored}\r\n", stored.len())), "STORED");
            UNTIL.store(until, SeqCst);
            let mut other = Client::of(&running);
            let answer = other.ask(&command);
            let until = UNTIL.swap(0, SeqCst);
            let is_known = ["", "STORED", "NOT_STORED", "HD", "8", "END", "EN"].contains(&&*answer)
                || ["VALUE key 0 ", "VA ", "SERVER_ERROR out of memory", "NOT_FOUND", "NF"]
                    .iter()
                    .any(|known| answer.starts_with(known));
            assert!(is_known, "{:.20}: {answer:.100}", command);
            if command.contains(" 300000\r\n") {
                // whether it was stored or not, the older one is gone
                assert!(client.value("key").as_deref() != Some("old"), "{:.20}: {answer}", command);
            }
            UNTIL.store(until, SeqCst);
        });
        assert!(refused >= least, "{:.20}: {refused} large allocations", command);
    }
    assert_eq!(client.ask("mn\r\n"), "MN");
    assert!(running.stop());
}

#[test]
fn a_key_has_as_many_bars_as_there_is_memory_for() {
    let _alone = ALONE.lock().unwrap();
    let running = in_memory(&[]);
    let mut client = Client::of(&running);
    UNTIL.store(1, SeqCst);
    let mut stand = 0;
    while UNTIL.load(SeqCst) > 0 {
        let answer = client.ask("md key B300\r\n");
        assert!(answer.starts_with("HD B") || UNTIL.load(SeqCst) == 0, "{answer}");
        stand += usize::from(answer.starts_with("HD B"));
        assert!(stand < 10_000, "their table isn't long");
    }
    assert_eq!(running.server.items.bars(), stand);
    assert!(client.ask("md key B300\r\n").starts_with("HD B"));
    assert!(running.stop());
}

fn polled<F: Future>(future: Pin<&mut F>) -> Poll<F::Output> {
    future.poll(&mut Context::from_waker(Waker::noop()))
}

fn is_refused<T>(polled: &Poll<io::Result<T>>) -> bool {
    matches!(polled, Poll::Ready(Err(error)) if error.kind() == ErrorKind::OutOfMemory)
}

#[test]
fn who_is_to_wait_for_a_key_is_refused_where_there_is_no_memory_for_that() {
    let _alone = ALONE.lock().unwrap();
    let running = in_memory(&[]);
    let items = &running.server.items;
    let held = match polled(pin!(items.change(b"key"))) {
        Poll::Ready(held) => held.unwrap(),
        Poll::Pending => panic!("it is free"),
    };
    let mut waiting = Vec::with_capacity(10_000);
    UNTIL.store(1, SeqCst);
    while waiting.len() < 10_000 {
        let mut next = Box::pin(items.change(b"key"));
        let polled = polled(next.as_mut());
        if UNTIL.load(SeqCst) == 0 {
            assert!(is_refused(&polled));
            break;
        }
        assert!(polled.is_pending());
        waiting.push(next);
    }
    assert_eq!(UNTIL.swap(0, SeqCst), 0, "those who wait take little memory");
    // the others have it in their turn
    drop(held);
    for mut next in waiting {
        assert!(matches!(polled(next.as_mut()), Poll::Ready(Ok(_))));
    }
    assert!(matches!(polled(pin!(items.change(b"key"))), Poll::Ready(Ok(_))));
    assert!(running.stop());
}

#[test]
fn who_is_to_change_a_key_is_refused_where_there_is_no_memory_for_its_lock() {
    let _alone = ALONE.lock().unwrap();
    let running = in_memory(&[]);
    let items = &running.server.items;
    let keys: Vec<_> = (0..400_000u32).map(u32::to_be_bytes).collect();
    let mut held = Vec::with_capacity(keys.len());
    UNTIL.store(1, SeqCst);
    for key in &keys {
        let polled = polled(pin!(items.change(key)));
        if UNTIL.load(SeqCst) == 0 {
            assert!(is_refused(&polled));
            break;
        }
        match polled {
            Poll::Ready(change) => held.push(change.unwrap()),
            Poll::Pending => panic!("it is free"),
        }
    }
    assert_eq!(UNTIL.swap(0, SeqCst), 0, "keys that are locked take little memory");
    drop(held);
    assert!(matches!(polled(pin!(items.change(&keys[0]))), Poll::Ready(Ok(_))));
    assert!(running.stop());
}

#[test]
fn a_page_for_which_there_is_no_memory_is_refused() {
    let _alone = ALONE.lock().unwrap();
    let running = in_memory(&["--metrics-port", "1"]);
    running.server.note();
    running.server.note();
    let mut refused = Vec::new();
    let count = each_refused(|| {
        let mut stream = TcpStream::connect(running.pages.unwrap()).unwrap();
        stream.write_all(b"GET / HTTP/1.1\r\n\r\n").unwrap();
        let mut line = String::new();
        let _ = BufReader::new(stream).read_line(&mut line);
        refused.push(line.trim_end().to_string());
    });
    // (who comes where there is little memory isn't answered, and who asks where there is none for the page is told so)
    assert_eq!(refused[count], "HTTP/1.1 200 OK");
    assert!(refused.contains(&"HTTP/1.1 503 Service Unavailable".to_string()), "{refused:?}");
    assert!(refused.iter().all(|it| it.is_empty() || it.starts_with("HTTP/1.1 ")), "{refused:?}");
    running.server.note();
    assert_eq!(Client::of(&running).ask("mn\r\n"), "MN");
    assert!(running.stop());
}
