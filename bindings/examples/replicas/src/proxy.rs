//! A connection that can be harmed: to the database, for who listens there.
use std::io::{self, Read, Write};
use std::net::{Shutdown, TcpListener, TcpStream};
use std::sync::{Mutex, PoisonError};
use std::thread;

/// What is forwarded, and how many connections there were before.
#[derive(Default)]
pub struct Proxy {
    // both ends of each connection, and the number of those that forward nothing any more
    connections: Mutex<(Vec<TcpStream>, usize)>,
}

impl Proxy {
    /// Forwards to this port, from one that it answers.
    pub fn open(to: u16) -> io::Result<(&'static Proxy, u16)> {
        let proxy: &Proxy = Box::leak(Box::default());
        let listener = TcpListener::bind(("127.0.0.1", 0))?;
        let port = listener.local_addr()?.port();
        thread::spawn(move || listener.incoming().flatten().for_each(|stream| drop(proxy.forward(stream, to))));
        Ok((proxy, port))
    }

    fn forward(&'static self, stream: TcpStream, to: u16) -> io::Result<()> {
        let other = TcpStream::connect(("127.0.0.1", to))?;
        let mut connections = self.connections.lock().unwrap_or_else(PoisonError::into_inner);
        let number = connections.0.len();
        connections.0.extend([stream.try_clone()?, other.try_clone()?]);
        let (from, into) = (stream.try_clone()?, other.try_clone()?);
        thread::spawn(move || self.copy(number, from, into));
        thread::spawn(move || self.copy(number, other, stream));
        Ok(())
    }

    fn copy(&self, number: usize, mut from: TcpStream, mut to: TcpStream) {
        let mut bytes = [0; 4096];
        while let Ok(length @ 1..) = from.read(&mut bytes) {
            let lost = self.connections.lock().unwrap_or_else(PoisonError::into_inner).1;
            // (what is lost is read, and goes nowhere: nobody is told)
            if number >= lost && to.write_all(&bytes[..length]).is_err() {
                break;
            }
        }
        let _ = to.shutdown(Shutdown::Both);
    }

    /// Closes all connections, of which both ends are told.
    pub fn cut(&self) {
        let connections = self.connections.lock().unwrap_or_else(PoisonError::into_inner);
        connections.0.iter().for_each(|stream| drop(stream.shutdown(Shutdown::Both)));
    }

    /// Forwards nothing of these connections any more, and closes none: as where packets are dropped on the way.
    pub fn lose(&self) {
        let mut connections = self.connections.lock().unwrap_or_else(PoisonError::into_inner);
        connections.1 = connections.0.len();
    }
}
