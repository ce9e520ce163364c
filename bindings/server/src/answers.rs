//! The answers of a connection, written together, and its stream.
use crate::base64;
use crate::buffer::Buffer;
use crate::counters::Counters;
use crate::head::Item;
use crate::limits::{InFlight, Patience, Share};
use crate::within::within;
use std::io;
use std::sync::Arc;
use std::time::Duration;
use tokio::io::{AsyncRead, AsyncReadExt, AsyncWrite, AsyncWriteExt};

/// Answers of so many bytes are written before more are made.
const MOST_WAITING: usize = 64 * 1024;
/// No line of an answer is longer.
const LINE: usize = 1024;
/// A buffer of so many bytes is kept, and a larger one given back.
pub const KEPT: usize = 64 * 1024;

/// What a connection reads from and writes to.
pub trait Stream: AsyncRead + AsyncWrite + Unpin + Send {}
impl<S: AsyncRead + AsyncWrite + Unpin + Send> Stream for S {}

/// The stream of a connection, with the answers that are to be written.
#[derive(Debug)]
pub struct Answers<S> {
    stream: S,
    buffer: Vec<u8>,
    share: Share,
    patience: Patience,
    counters: Arc<Counters>,
}

impl<S: Stream> Answers<S> {
    pub fn new(stream: S, in_flight: &Arc<InFlight>, patience: Patience, counters: Arc<Counters>) -> Answers<S> {
        Answers { stream, buffer: Vec::new(), share: Share::none_of(in_flight), patience, counters }
    }

    /// The line of an answer, with its end.
    pub fn line(&mut self, words: &[u8]) {
        self.buffer.extend_from_slice(words);
        self.end_line();
    }

    /// The line of an answer, unless the client wants none.
    pub fn line_unless(&mut self, is_quiet: bool, words: &[u8]) {
        if !is_quiet {
            self.line(words);
        }
    }

    /// A piece of a line.
    pub fn piece(&mut self, bytes: &[u8]) {
        self.buffer.extend_from_slice(bytes);
    }

    /// A number, as a piece of a line.
    pub fn number(&mut self, number: u64) {
        self.piece(itoa::Buffer::new().format(number).as_bytes());
    }

    /// A key, as it came.
    pub fn key(&mut self, key: &[u8], is_binary: bool) {
        if is_binary {
            base64::encode(key, &mut self.buffer);
        } else {
            self.piece(key);
        }
    }

    pub fn end_line(&mut self) {
        self.piece(b"\r\n");
    }

    /// Whether there is memory for a line.
    pub fn has_room_for_line(&mut self) -> bool {
        self.has_room_for_text(LINE)
    }

    /// Whether there is memory for so many bytes of lines.
    pub fn has_room_for_text(&mut self, length: usize) -> bool {
        self.buffer.try_reserve(length).is_ok()
    }

    /// Whether an item's value may be answered, with the many bytes that are in flight, and there is memory for it and two lines.
    pub fn has_room_for(&mut self, item: &Item) -> bool {
        let length = self.buffer.len() + item.value().len();
        let is_granted = length <= KEPT || self.share.grow_to(length);
        if !is_granted {
            self.counters.in_flight_refused.one();
        }
        is_granted && self.buffer.try_reserve(item.value().len() + 2 * LINE).is_ok()
    }

    /// Writes the answers, where many wait.
    pub async fn make_room(&mut self) -> io::Result<()> {
        if self.buffer.len() > MOST_WAITING {
            self.flush().await?;
        }
        Ok(())
    }

    /// Writes all answers that wait. A client that takes none for so long, or not all, ends the connection.
    pub async fn flush(&mut self) -> io::Result<()> {
        if self.buffer.is_empty() {
            return Ok(());
        }
        let Patience { stall, command, .. } = self.patience;
        let writes = write_all(&mut self.stream, &self.buffer, stall);
        let written = within(command, writes).await.unwrap_or(Err(io::ErrorKind::TimedOut.into()));
        if written.as_ref().is_err_and(|error| error.kind() == io::ErrorKind::TimedOut) {
            self.counters.stall_kicks.one();
        }
        written?;
        self.counters.bytes_written.add(self.buffer.len() as u64);
        self.buffer.clear();
        if self.buffer.capacity() > KEPT {
            self.buffer = Vec::new();
        }
        self.share.clear();
        Ok(())
    }

    /// Reads what has come behind these bytes, as much as there is room for, and answers how much. 0: no more will come.
    pub async fn read_into(&mut self, received: &mut Buffer) -> io::Result<usize> {
        self.stream.read_buf(received.end()).await
    }

    /// Tells the client that no more will come.
    pub async fn shutdown(&mut self) {
        let _ = self.stream.shutdown().await;
    }
}

// Writes all of it, of which some is taken within so long each time.
async fn write_all<S: Stream>(stream: &mut S, bytes: &[u8], stall: Duration) -> io::Result<()> {
    let mut done = 0;
    while done < bytes.len() {
        match within(stall, stream.write(&bytes[done..])).await {
            Ok(Ok(0)) => return Err(io::ErrorKind::WriteZero.into()),
            Ok(written) => done += written?,
            Err(_) => return Err(io::ErrorKind::TimedOut.into()),
        }
    }
    Ok(())
}
