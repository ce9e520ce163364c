//! The finds of a command of many keys: those that come next are asked for before the first is waited for.
use crate::head::Item;
use crate::items::{Items, Wait};
use crate::limits::{InFlight, Share};
use kilambosetry::{Error, GetAsync, Value};
use std::collections::VecDeque;
use std::future::{poll_fn, Future};
use std::iter::Peekable;
use std::pin::Pin;
use std::sync::Arc;
use std::task::{Context, Poll};

/// So many keys are asked for at once, at most.
const MOST: usize = 256;

/// What a get of the cache came to.
pub type Found = Result<Option<Value>, Error>;

/// The finds of a command's keys, in their order. What is asked for ahead counts as bytes in flight, and leaves half of these to others;
/// where there are no more, keys are found one after the other.
#[derive(Debug)]
pub struct Finds<'a, K: Iterator<Item = &'a [u8]>> {
    items: &'a Items,
    in_flight: &'a Arc<InFlight>,
    keys: Peekable<K>,
    ahead: VecDeque<Ahead<'a>>,
    wait: Wait,
}

// A key that was asked for ahead.
#[derive(Debug)]
struct Ahead<'a> {
    key: &'a [u8],
    asked: Asked<'a>,
    // (it is given back as the key's turn comes)
    _share: Share,
}

/// A key that was asked for.
#[derive(Debug)]
pub enum Asked<'a> {
    Waits(GetAsync<'a>),
    Came(Found),
}

impl<'a> Asked<'a> {
    /// Asks for it.
    pub fn of(mut get: GetAsync<'a>, context: &mut Context<'_>) -> Asked<'a> {
        match Pin::new(&mut get).poll(context) {
            Poll::Ready(found) => Asked::Came(found),
            Poll::Pending => Asked::Waits(get),
        }
    }
}

fn length_of(found: &Found) -> usize {
    found.as_ref().ok().and_then(Option::as_ref).map_or(0, |value| value.len())
}

impl<'a, K: Iterator<Item = &'a [u8]>> Finds<'a, K> {
    #[must_use]
    pub fn new(items: &'a Items, in_flight: &'a Arc<InFlight>, keys: K) -> Finds<'a, K> {
        Finds { items, in_flight, keys: keys.peekable(), ahead: VecDeque::new(), wait: items.wait() }
    }

    /// The next key and its item. What the cache can't tell in time, or since it is out of memory, is a miss.
    pub async fn next(&mut self) -> Option<(&'a [u8], Option<Item>)> {
        let (key, found) = self.next_found().await?;
        Some((key, self.items.item_of(found)))
    }

    /// The next key, and what the cache has of it.
    pub async fn next_found(&mut self) -> Option<(&'a [u8], Found)> {
        let (key, first) = poll_fn(|context| Poll::Ready(self.ask(context))).await?;
        let found = match first {
            Asked::Came(found) => found,
            Asked::Waits(get) => self.wait.answer_of(get).await,
        };
        Some((key, found))
    }

    /// How the other finds of the command wait.
    pub fn wait(&mut self) -> &mut Wait {
        &mut self.wait
    }

    // The first key that isn't told yet. It is asked for, and so are those behind it.
    fn ask(&mut self, context: &mut Context<'_>) -> Option<(&'a [u8], Asked<'a>)> {
        let first = match self.ahead.pop_front() {
            Some(Ahead { key, asked, .. }) => (key, asked),
            None => {
                let key = self.keys.next()?;
                (key, self.items.ask(key, context))
            }
        };
        if !self.wait.is_over() {
            self.ask_ahead(context);
        }
        Some(first)
    }

    // Nobody knows how long what flash has is, until it has come: it counts as the longest item that there may be.
    fn ask_ahead(&mut self, context: &mut Context<'_>) {
        let Some(longest) = self.items.longest_on_flash() else { return }; // (then none waits)
        while self.keys.peek().is_some() && self.ahead.len() < MOST - 1 && self.ahead.try_reserve(1).is_ok() {
            let mut share = Share::none_of(self.in_flight);
            if !share.grow_spare(longest) {
                return;
            }
            let Some(key) = self.keys.next() else { return };
            let asked = self.items.ask(key, context);
            let is_counted = match &asked {
                Asked::Waits(_) => true,
                Asked::Came(found) => share.set_spare(length_of(found)),
            };
            self.ahead.push_back(Ahead { key, asked, _share: share });
            if !is_counted {
                return;
            }
        }
    }
}
