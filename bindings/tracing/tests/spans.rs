//! Calls are spans, with where the answer came from, and those of the load and the commit within.
use kilambosetry::{HybridCache, LoadError, Loaded, Options};
use kilambosetry_tracing::{tell, Traced};
use std::fmt::{self, Write};
use std::future::Future;
use std::pin::pin;
use std::sync::{Arc, Mutex};
use std::task::{Context, Poll, Waker};
use tracing::field::{Field, Visit};
use tracing::span::{Attributes, Id, Record};
use tracing::{Event, Metadata, Subscriber};

// What was told, a line for each, with those within set in. (Spans aren't told apart: the last one that was begun is recorded in.)
#[derive(Clone, Default)]
struct Told(Arc<Mutex<(String, usize)>>);

struct Fields<'a>(&'a mut String);

impl Visit for Fields<'_> {
    fn record_debug(&mut self, field: &Field, value: &dyn fmt::Debug) {
        if field.name() != "shard" {
            write!(self.0, " {}={value:?}", field.name()).unwrap();
        }
    }
}

impl Told {
    fn line(&self, word: &str, tell: impl FnOnce(&mut Fields<'_>)) {
        let (text, depth) = &mut *self.0.lock().unwrap();
        write!(text, "{}{word}", "  ".repeat(*depth)).unwrap();
        tell(&mut Fields(text));
        text.push('\n');
    }
}

impl Subscriber for Told {
    fn enabled(&self, _: &Metadata<'_>) -> bool {
        true
    }

    fn new_span(&self, span: &Attributes<'_>) -> Id {
        self.line(span.metadata().name(), |fields| span.record(fields));
        Id::from_u64(1)
    }

    fn record(&self, _: &Id, values: &Record<'_>) {
        self.line("..", |fields| values.record(fields));
    }

    fn record_follows_from(&self, _: &Id, _: &Id) {}

    fn event(&self, event: &Event<'_>) {
        self.line("event", |fields| event.record(fields));
    }

    fn enter(&self, _: &Id) {
        self.0.lock().unwrap().1 += 1;
    }

    fn exit(&self, _: &Id) {
        self.0.lock().unwrap().1 -= 1;
    }
}

fn cache() -> Traced {
    Traced(HybridCache::in_memory(&Options::default()).unwrap())
}

fn lines(does: impl FnOnce()) -> Vec<String> {
    let told = Told::default();
    tracing::subscriber::with_default(told.clone(), does);
    let text = told.0.lock().unwrap().0.clone();
    text.lines().map(str::to_string).collect()
}

#[test]
fn calls_are_spans() {
    let cache = cache();
    let told = lines(|| {
        cache.get(b"key").unwrap();
        cache.set(b"key", b"row", 0).unwrap();
        cache.get(b"key").unwrap();
        cache.delete(b"key").unwrap();
        cache.get(&[0; 300]).unwrap_err();
    });
    let wanted = [
        "get",
        "  .. from=\"none\"",
        "set bytes=3",
        "get",
        "  .. from=\"memory\"",
        "delete",
        "get",
        "  .. error=refused 2 KeyTooLong",
    ];
    assert_eq!(told, wanted);
}

#[test]
fn loads_and_commits_are_spans_within() {
    let cache = cache();
    let told = lines(|| {
        cache.get_or_load(b"a", 0, || Ok::<_, &str>("row")).unwrap();
        cache.get_or_load(b"a", 0, || Ok::<_, &str>("row")).unwrap();
        cache.find_or_load(b"b", || Ok::<_, &str>(Loaded::absent(60))).unwrap();
        cache.find_or_load(b"b", || Ok::<_, &str>(Loaded::absent(60))).unwrap();
        let failed = cache.get_or_load(b"c", 0, || Err::<&str, _>("it is down"));
        assert_eq!(failed, Err(LoadError::Load("it is down")));
        cache.change(b"a", || Ok::<_, &str>(())).unwrap();
        cache.change(b"a", || Err::<(), _>("lost")).unwrap_err();
    });
    let wanted = [
        "get_or_load",
        "  load",
        "  .. from=\"load\"",
        "get_or_load",
        "  .. from=\"memory\"",
        "find_or_load",
        "  load",
        "  .. from=\"load\"",
        "find_or_load",
        "  .. from=\"none\"",
        "get_or_load",
        "  load",
        "  .. from=\"load\"",
        "  .. error=it is down",
        "change",
        "  commit",
        "change",
        "  commit",
        ".. error=lost",
    ];
    assert_eq!(told, wanted);
}

#[test]
fn tasks_have_spans_too() {
    let cache = cache();
    let told = lines(|| {
        let load = async || Ok::<_, &str>(Loaded::row("row", 0));
        for _ in 0..2 {
            let found = pin!(cache.find_or_load_async(b"a", load)).poll(&mut Context::from_waker(Waker::noop()));
            assert!(matches!(found, Poll::Ready(Ok(Some(_)))));
        }
    });
    assert_eq!(told, ["find_or_load", "  load", ".. from=\"load\"", "find_or_load"]);
}

#[test]
fn what_is_forgotten_is_an_event() {
    let cache = cache();
    let listener = cache.0.listen(10).unwrap();
    cache.delete(b"key").unwrap();
    cache.set(b"key", b"row", 0).unwrap();
    cache.0.clear();
    drop(cache);
    let told = lines(|| listener.for_each(|gone| tell(&gone)));
    let wanted = ["event message=gone cause=Deleted count=1 key_bytes=3", "event message=gone cause=Cleared count=1"];
    assert_eq!(told, wanted);
}

#[test]
fn nothing_changes_where_nobody_looks() {
    let cache = cache();
    assert!(cache.get_or_load(b"a", 0, || Ok::<_, &str>("row")).is_ok() && cache.get(b"a").unwrap().is_some());
}
