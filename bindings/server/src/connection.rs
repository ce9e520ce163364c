//! A connection: commands are read, done in their order, and their answers written together.
use crate::answers::{Answers, Stream, KEPT};
use crate::buffer::Buffer;
use crate::classic::{self, refused};
use crate::flags::Verb;
use crate::head::LONGEST_VALUE;
use crate::items::NotKept;
use crate::limits::Share;
use crate::meta::how_of;
use crate::parse::{line_of, Received};
use crate::request::{Command, How, Request};
use crate::server::Worker;
use crate::times::Kind;
use crate::within::{within, TimeIsUp};
use std::future::{poll_fn, Future};
use std::io;
use std::pin::pin;
use std::task::Poll;
use std::time::{Duration, Instant};
use tokio::sync::watch;

// So many bytes are read at once, where no more are known to come.
const READ: usize = 16 * 1024;
// How long a client may take to read its last answers, before the connection is reset.
const LINGER: Duration = Duration::from_millis(100);

/// A connection of a client.
#[derive(Debug)]
pub struct Connection<S> {
    worker: Worker,
    received: Buffer,
    answers: Answers<S>,
    // of the bytes in flight, for what is being received
    share: Share,
    // so many bytes of the line that is being received have come, and been looked through for its end
    looked_through: usize,
    // bytes of a body that are to be passed over
    passed_over: usize,
    // whether nothing has come yet
    is_new: bool,
    // since when the command at the head of what was received is waited for
    begun: Option<Instant>,
    // whether the server is about to end
    ends: watch::Receiver<bool>,
    is_last: bool,
}

// What became of waiting for more.
enum Came {
    // as much has come as was wanted
    All,
    // no more will come
    End,
    // there is no room for more
    NoRoom,
}

// What comes of the command at the head of what was received.
enum Next {
    // it took so many bytes
    Took(usize),
    // it isn't whole before there are so many bytes
    Wants(usize),
    // the connection is to be closed
    Ends,
}

impl<S: Stream> Connection<S> {
    pub fn new(worker: Worker, stream: S, ends: watch::Receiver<bool>) -> Connection<S> {
        let in_flight = &worker.server.in_flight;
        let share = Share::none_of(in_flight);
        let counters = worker.counters.clone();
        let answers = Answers::new(stream, in_flight, worker.server.patience, counters);
        let is_last = *ends.borrow();
        let received = Buffer::default();
        Connection {
            worker,
            received,
            answers,
            share,
            looked_through: 0,
            passed_over: 0,
            is_new: true,
            begun: None,
            ends,
            is_last,
        }
    }

    /// Serves the client until it or the server ends.
    pub async fn serve(mut self) {
        // (an error ends the connection, and nobody else can be told)
        if self.answer_all().await.is_ok() {
            self.answers.shutdown().await;
            self.linger().await;
        }
    }

    async fn answer_all(&mut self) -> io::Result<()> {
        while let Some(wanted) = self.answer_received().await? {
            self.answers.flush().await?;
            match self.receive(wanted).await? {
                Came::All => {}
                Came::End => return Ok(()),
                Came::NoRoom if self.refuse_received().await? => {}
                Came::NoRoom => break,
            }
        }
        self.answers.flush().await
    }

    // Does the commands that are whole, and answers how many bytes the next one wants in all. None: the connection is to be closed.
    async fn answer_received(&mut self) -> io::Result<Option<usize>> {
        loop {
            let passed = self.passed_over.min(self.received.len());
            self.received.advance(passed);
            self.passed_over -= passed;
            if self.received.is_empty() {
                self.give_back();
                return Ok(Some(1));
            }
            if std::mem::take(&mut self.is_new) && !is_text(self.received.bytes()[0]) {
                return Ok(None);
            }
            match self.answer_next().await? {
                Next::Took(bytes) => {
                    self.received.advance(bytes);
                    self.begun = None;
                }
                Next::Wants(bytes) => return Ok(Some(bytes)),
                Next::Ends => return Ok(None),
            }
            self.answers.make_room().await?;
        }
    }

    // Gives memory back that a large body took.
    fn give_back(&mut self) {
        self.share.clear();
        if self.received.capacity() > KEPT {
            self.received = Buffer::default();
        }
    }

    async fn answer_next(&mut self) -> io::Result<Next> {
        let Connection { worker, received, answers, passed_over, looked_through, .. } = self;
        let received = received.bytes();
        if !answers.has_room_for_line() {
            return Ok(Next::Ends);
        }
        let (line, length) = match line_of(received, *looked_through) {
            Received::Line(line, length) => (line, length),
            Received::Part => {
                *looked_through = received.len();
                return Ok(Next::Wants(received.len() + 1));
            }
            Received::TooLong => return Ok(Next::Ends),
        };
        *looked_through = 0;
        let request = match Request::of(line) {
            None | Some(Ok(Request { command: Command::Quit, .. })) => return Ok(Next::Ends),
            Some(Ok(request)) => request,
            Some(Err(fault)) => {
                answers.line_unless(fault.is_quiet, fault.text.as_bytes());
                *passed_over = fault.value.map_or(0, |value| value + 2);
                return Ok(Next::Took(length));
            }
        };
        let (value, whole) = match value_of(&request) {
            None => (Some(b"".as_slice()), length),
            Some(value) if value > LONGEST_VALUE => {
                refuse(worker, &request, NotKept::TooLarge, answers).await?;
                *passed_over = value + 2;
                return Ok(Next::Took(length));
            }
            Some(value) if received.len() < length + value + 2 => return Ok(Next::Wants(length + value + 2)),
            Some(value) => (received[length..length + value + 2].strip_suffix(b"\r\n"), length + value + 2),
        };
        match (value, worker.times.begin()) {
            (None, _) => refuse_chunk(worker, &request, answers),
            (Some(value), None) => classic::run(worker, request, value, answers).await?,
            (Some(value), Some(begun)) => run_timed(begun, worker, request, value, answers).await?,
        }
        Ok(Next::Took(whole))
    }

    // Refuses the command of which no more can be received, and passes its value over. No: the connection is to be closed.
    async fn refuse_received(&mut self) -> io::Result<bool> {
        let Connection { worker, received, answers, passed_over, .. } = self;
        let Received::Line(line, length) = line_of(received.bytes(), 0) else {
            worker.counters.in_flight_refused.one();
            answers.line(b"SERVER_ERROR out of memory reading request");
            return Ok(false);
        };
        let Some(Ok(request)) = Request::of(line) else { return Ok(false) };
        let Some(value) = value_of(&request) else { return Ok(false) };
        refuse(worker, &request, NotKept::NoMemory, answers).await?;
        *passed_over = value + 2;
        received.advance(length);
        self.begun = None;
        Ok(true)
    }

    // Waits until there are so many bytes.
    async fn receive(&mut self, wanted: usize) -> io::Result<Came> {
        while self.received.len() < wanted {
            if !self.make_room(wanted - self.received.len()) {
                return Ok(Came::NoRoom);
            }
            let read = self.read().await?;
            if read == 0 {
                return Ok(Came::End);
            }
            self.worker.counters.bytes_read.add(read as u64);
        }
        Ok(Came::All)
    }

    // Makes room for what comes next: where little has come, for little, however much is to come. No: too many bytes are in flight,
    // or there is no memory.
    fn make_room(&mut self, missing: usize) -> bool {
        self.received.compact();
        if self.received.room() >= missing.min(READ) {
            return true;
        }
        let more = missing.clamp(READ, self.received.len().max(READ));
        let length = self.received.len() + more;
        (length <= KEPT || self.share.grow_to(length)) && self.received.try_reserve(more).is_ok()
    }

    async fn read(&mut self) -> io::Result<usize> {
        let is_between = self.received.is_empty() && self.passed_over == 0;
        if self.is_last && is_between {
            return self.read_what_is_there().await;
        }
        let patience = self.worker.server.patience;
        let limit = if is_between { patience.idle } else { Some(self.left_of_command().min(patience.stall)) };
        let Some(limit) = limit else { return self.read_or_end().await };
        let read = match limit {
            // (a client of which something has come each time it is looked at)
            Duration::ZERO => Err(TimeIsUp),
            limit => within(limit, self.read_or_end()).await,
        };
        read.unwrap_or_else(|TimeIsUp| {
            let counters = &self.worker.counters;
            if is_between { &counters.idle_kicks } else { &counters.stall_kicks }.one();
            Ok(0)
        })
    }

    // How long the command at the head of what was received may still take to come whole.
    fn left_of_command(&mut self) -> Duration {
        let begun = *self.begun.get_or_insert_with(Instant::now);
        self.worker.server.patience.command.saturating_sub(begun.elapsed())
    }

    // Reads, and once the server is about to end no more than has come by then, but for the rest of a command.
    async fn read_or_end(&mut self) -> io::Result<usize> {
        while !self.is_last {
            tokio::select! {
                biased;
                read = self.answers.read_into(&mut self.received) => return read,
                _ = self.ends.changed() => self.is_last = true,
            }
        }
        if self.received.is_empty() && self.passed_over == 0 {
            return self.read_what_is_there().await;
        }
        self.answers.read_into(&mut self.received).await
    }

    // Reads without waiting.
    async fn read_what_is_there(&mut self) -> io::Result<usize> {
        let mut reading = pin!(self.answers.read_into(&mut self.received));
        let read = poll_fn(|context| Poll::Ready(reading.as_mut().poll(context))).await;
        match read {
            Poll::Ready(read) => read,
            Poll::Pending => Ok(0),
        }
    }

    // A connection that is closed before all that came was read is reset, and its last answers may be lost with that.
    async fn linger(&mut self) {
        let passed = async {
            loop {
                self.received.clear();
                if self.received.try_reserve(READ).is_err() {
                    return;
                }
                if !matches!(self.answers.read_into(&mut self.received).await, Ok(1..)) {
                    return;
                }
            }
        };
        let _ = within(LINGER, passed).await;
    }
}

// Does what a client asks for, whose time counts from where it has come whole until its answer is made.
async fn run_timed<S: Stream>(
    begun: Instant,
    worker: &Worker,
    request: Request<'_>,
    value: &[u8],
    answers: &mut Answers<S>,
) -> io::Result<()> {
    let (kind, mut has_waited) = (Kind::of(&request.command), false);
    let mut doing = pin!(classic::run(worker, request, value, answers));
    let done = poll_fn(|context| {
        let polled = doing.as_mut().poll(context);
        has_waited |= polled.is_pending();
        polled
    });
    let done = done.await;
    worker.times.add(kind.where_it(has_waited), begun.elapsed());
    done
}

// The length of the value that comes behind a request's line.
fn value_of(request: &Request<'_>) -> Option<usize> {
    match &request.command {
        Command::Store(store) => Some(store.length),
        Command::Meta(meta) => match meta.verb {
            Verb::Set { length } => Some(length),
            _ => None,
        },
        _ => None,
    }
}

// Whether the first byte of a connection may be one of a command. Another begins another protocol: memcached's binary one, or TLS,
// whose clients wait for an answer.
fn is_text(byte: u8) -> bool {
    matches!(byte, b' '..=b'~' | b'\t' | b'\r' | b'\n')
}

// Answers that a value isn't stored, which is then passed over. What its key had is gone where it was to be replaced whatever it is:
// else it would be older than what the client believes to be there.
async fn refuse<S: Stream>(
    worker: &Worker,
    request: &Request<'_>,
    why: NotKept,
    answers: &mut Answers<S>,
) -> io::Result<()> {
    let counters = &worker.counters;
    if why == NotKept::NoMemory {
        counters.in_flight_refused.one();
    }
    let key = match &request.command {
        Command::Store(store) if matches!(store.how, How::Set | How::Replace) => Some(store.key),
        Command::Meta(meta) if matches!(how_of(&meta.flags), How::Set | How::Replace) => Some(&*meta.key),
        _ => None,
    };
    if let Some(key) = key {
        let _ = worker.server.items.change(key).await?.remove().await;
    }
    answers.line_unless(request.is_quiet, refused(counters, why).as_bytes());
    Ok(())
}

fn refuse_chunk<S: Stream>(worker: &Worker, request: &Request<'_>, answers: &mut Answers<S>) {
    worker.counters.cmd_set.one();
    answers.line_unless(request.is_quiet, b"CLIENT_ERROR bad data chunk");
}
