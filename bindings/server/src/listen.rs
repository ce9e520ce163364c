//! Listening, the threads that serve connections, and how both end.
use crate::config::Config;
use crate::connection::Connection;
use crate::metrics;
use crate::page::history;
use crate::server::{Server, Worker};
use crate::within::within;
use std::fs::{self, Permissions};
use std::future::Future;
use std::io::{self, Write};
use std::net::{IpAddr, Ipv4Addr, SocketAddr};
use std::os::unix::fs::{DirBuilderExt, FileTypeExt, PermissionsExt};
use std::os::unix::net as unix;
use std::path::{Path, PathBuf};
use std::process;
use std::sync::atomic::{AtomicUsize, Ordering::Relaxed};
use std::sync::Arc;
use std::thread;
use std::time::Duration;
use tokio::net::{TcpListener, TcpStream, UnixListener, UnixStream};
use tokio::runtime::Builder;
use tokio::sync::{mpsc, oneshot, watch, OwnedSemaphorePermit};
use tokio::task::JoinSet;

// After an accept that failed, say since the process is out of file handles.
const PAUSE: Duration = Duration::from_millis(100);

/// So many clients may wait to be let in, as memcached has it: whoever comes then waits for a second and more.
pub const BACKLOG: i32 = 1024;
// The longest path of a unix socket.
const LONGEST_PATH: usize = 107;

/// The sockets of a server, open.
#[derive(Debug)]
pub struct Sockets {
    tcp: Option<std::net::TcpListener>,
    unix: Option<(unix::UnixListener, Name)>,
    metrics: Option<std::net::TcpListener>,
}

// The name of a unix socket, which goes as this is dropped.
#[derive(Debug)]
struct Name(PathBuf);

impl Drop for Name {
    fn drop(&mut self) {
        let _ = fs::remove_file(&self.0);
    }
}

// A client that has come.
enum Client {
    Tcp(std::net::TcpStream),
    Unix(unix::UnixStream),
}

// A client, with its permit to be connected.
type Admitted = (Client, OwnedSemaphorePermit);

impl Sockets {
    /// Opens the sockets that the command line names.
    pub fn open(config: &Config) -> io::Result<Sockets> {
        let tcp = |port| open_tcp(config.listen, port);
        // (whoever is let in by the port finds the others open)
        Ok(Sockets {
            unix: config.unix.as_deref().map(open_unix).transpose()?,
            metrics: (config.metrics_port > 0).then(|| tcp(config.metrics_port)).transpose()?,
            tcp: (config.port > 0).then(|| tcp(config.port)).transpose()?,
        })
    }

    /// Sockets on ports of this machine that are free, for the pages too where the command line names a port for them.
    pub fn on_any_ports(config: &Config) -> io::Result<Sockets> {
        let open = || open_tcp(Ipv4Addr::LOCALHOST.into(), 0);
        let metrics = (config.metrics_port > 0).then(open).transpose()?;
        Ok(Sockets { tcp: Some(open()?), unix: None, metrics })
    }

    /// The address that clients connect to.
    #[must_use]
    pub fn address(&self) -> Option<SocketAddr> {
        self.tcp.as_ref()?.local_addr().ok()
    }

    /// The address of the pages.
    #[must_use]
    pub fn pages_address(&self) -> Option<SocketAddr> {
        self.metrics.as_ref()?.local_addr().ok()
    }
}

// A socket of this name for the server's user alone. That of a server that has ended is in the way. It is made in a folder that
// nobody else may enter, and has its rights before it has its name: no other user can connect in between.
fn open_unix(path: &Path) -> io::Result<(unix::UnixListener, Name)> {
    if path.as_os_str().len() > LONGEST_PATH {
        let text = format!("the path of the unix socket has more than {LONGEST_PATH} bytes");
        return Err(io::Error::new(io::ErrorKind::InvalidInput, text));
    }
    let is_socket = fs::symlink_metadata(path).is_ok_and(|it| it.file_type().is_socket());
    if is_socket && unix::UnixStream::connect(path).is_err() {
        fs::remove_file(path)?;
    }
    let folder = path.with_file_name(format!(".{}", process::id()));
    fs::DirBuilder::new().mode(0o700).create(&folder)?;
    let made = bind_within(&folder.join("s"), path);
    fs::remove_dir(&folder)?;
    made
}

fn open_tcp(address: IpAddr, port: u16) -> io::Result<std::net::TcpListener> {
    let listener = std::net::TcpListener::bind((address, port))?;
    // (who listens already has a longer queue from then on)
    rustix::net::listen(&listener, BACKLOG)?;
    Ok(listener)
}

// (a link is refused where the name is taken, by a server that lives or by another file)
fn bind_within(inner: &Path, path: &Path) -> io::Result<(unix::UnixListener, Name)> {
    let listener = unix::UnixListener::bind(inner)?;
    rustix::net::listen(&listener, BACKLOG)?;
    let named = fs::set_permissions(inner, Permissions::from_mode(0o700)).and_then(|()| fs::hard_link(inner, path));
    fs::remove_file(inner)?;
    match named {
        Ok(()) => Ok((listener, Name(path.to_path_buf()))),
        Err(error) if error.kind() == io::ErrorKind::AlreadyExists => {
            Err(io::Error::new(io::ErrorKind::AddrInUse, format!("{} is there already", path.display())))
        }
        Err(error) => Err(error),
    }
}

/// How the connections of a server ended.
#[derive(Clone, Copy, Debug, PartialEq, Eq)]
pub enum Ended {
    /// All had their answers.
    Drained,
    /// Some didn't take theirs in time, and were closed.
    CutOff,
    /// A thread that serves some doesn't come to its end.
    Hangs,
}

// Once no more time is left for answers, connections have so long to end.
const CUT_OFF: Duration = Duration::from_secs(5);

/// Serves clients until `stop` is over. Then none is let in any more, and those that are there have so long to send what they have
/// begun and to take their answers. Those that don't are closed.
pub async fn serve(server: Arc<Server>, sockets: Sockets, stop: impl Future) -> io::Result<Ended> {
    let (tell_end, ends) = watch::channel(Stage::Serves);
    let (alive, mut all_ended) = mpsc::channel::<()>(1);
    let workers = server.workers().map(|worker| start(worker, ends.clone(), alive.clone()));
    let workers = Arc::new(Workers { queues: workers.collect::<io::Result<_>>()?, next: AtomicUsize::new(0) });
    drop(alive);
    let mut listening = listen(&server, sockets, &workers)?;
    drop(workers);
    stop.await;
    listening.shutdown().await;
    let _ = tell_end.send(Stage::Drains);
    // (it has its answer once no worker holds the other end)
    if within(server.config.drain(), all_ended.recv()).await.is_ok() {
        return Ok(Ended::Drained);
    }
    let _ = tell_end.send(Stage::CutsOff);
    let has_ended = within(CUT_OFF, all_ended.recv()).await.is_ok();
    Ok(if has_ended { Ended::CutOff } else { Ended::Hangs })
}

// What workers are told of the end.
#[derive(Clone, Copy, Debug, PartialEq, Eq)]
enum Stage {
    Serves,
    Drains,
    CutsOff,
}

// Where clients go, one worker after the other.
struct Workers {
    queues: Vec<mpsc::UnboundedSender<Admitted>>,
    next: AtomicUsize,
}

impl Workers {
    fn hand(&self, client: Admitted) {
        let next = self.next.fetch_add(1, Relaxed) % self.queues.len();
        // (a worker that has ended closes it)
        let _ = self.queues[next].send(client);
    }
}

fn listen(server: &Arc<Server>, sockets: Sockets, workers: &Arc<Workers>) -> io::Result<JoinSet<()>> {
    let mut listening = JoinSet::new();
    if let Some(tcp) = sockets.tcp {
        tcp.set_nonblocking(true)?;
        let listener = TcpListener::from_std(tcp)?;
        listening.spawn(accept_tcp(Arc::clone(server), listener, Arc::clone(workers)));
    }
    if let Some((unix, name)) = sockets.unix {
        unix.set_nonblocking(true)?;
        let listener = UnixListener::from_std(unix)?;
        listening.spawn(accept_unix(Arc::clone(server), listener, name, Arc::clone(workers)));
    }
    if let Some(tcp) = sockets.metrics {
        tcp.set_nonblocking(true)?;
        listening.spawn(metrics::serve(Arc::clone(server), TcpListener::from_std(tcp)?));
        listening.spawn(history::keep(Arc::clone(server)));
    }
    Ok(listening)
}

async fn accept_tcp(server: Arc<Server>, listener: TcpListener, workers: Arc<Workers>) {
    loop {
        let accepted = listener.accept().await.and_then(|(stream, _)| {
            stream.set_nodelay(true)?;
            stream.into_std()
        });
        match accepted {
            Ok(stream) => admit(&server, Client::Tcp(stream), &workers),
            Err(_) => tokio::time::sleep(PAUSE).await,
        }
    }
}

async fn accept_unix(server: Arc<Server>, listener: UnixListener, _name: Name, workers: Arc<Workers>) {
    loop {
        match listener.accept().await.and_then(|(stream, _)| stream.into_std()) {
            Ok(stream) => admit(&server, Client::Unix(stream), &workers),
            Err(_) => tokio::time::sleep(PAUSE).await,
        }
    }
}

// Hands the client to a worker, unless there are too many, or no memory for one more.
fn admit(server: &Server, client: Client, workers: &Workers) {
    match Arc::clone(&server.free_connections).try_acquire_owned() {
        Ok(permit) if server.has_memory_for_last() => workers.hand((client, permit)),
        Ok(_) => reject(server, client, b"SERVER_ERROR out of memory\r\n"),
        Err(_) => reject(server, client, b"ERROR Too many open connections\r\n"),
    }
}

fn reject(server: &Server, client: Client, text: &[u8]) {
    server.count_rejected();
    // (its socket doesn't block, and takes a line at once)
    let _ = match client {
        Client::Tcp(mut stream) => stream.write_all(text),
        Client::Unix(mut stream) => stream.write_all(text),
    };
}

// Starts a thread that serves connections, and answers how it gets them.
fn start(
    worker: Worker,
    ends: watch::Receiver<Stage>,
    alive: mpsc::Sender<()>,
) -> io::Result<mpsc::UnboundedSender<Admitted>> {
    let (queue, clients) = mpsc::unbounded_channel();
    let runtime = Builder::new_current_thread().enable_all().build()?;
    let work = move || {
        runtime.block_on(work(worker, clients, ends));
        drop(alive);
    };
    thread::Builder::new().name("connections".to_string()).spawn(work)?;
    Ok(queue)
}

// Serves the clients that come, until no more do and all have ended. They wait for the end by a channel of this thread's own: whoever
// waits takes its lock.
async fn work(worker: Worker, mut clients: mpsc::UnboundedReceiver<Admitted>, mut ends: watch::Receiver<Stage>) {
    let (tell_end, told) = watch::channel(false);
    let mut connections = JoinSet::new();
    loop {
        tokio::select! {
            client = clients.recv() => match client {
                Some((client, permit)) => {
                    connections.spawn(serve_client(worker.clone(), client, permit, told.clone()));
                }
                None => break,
            },
            Some(_) = connections.join_next() => {}
        }
    }
    // (whoever hands clients over has ended, or is about to tell)
    let _ = ends.changed().await;
    let _ = tell_end.send(true);
    while *ends.borrow_and_update() != Stage::CutsOff {
        tokio::select! {
            ended = connections.join_next() => if ended.is_none() { return },
            Ok(()) = ends.changed() => {}
        }
    }
    connections.shutdown().await;
}

async fn serve_client(worker: Worker, client: Client, permit: OwnedSemaphorePermit, ends: watch::Receiver<bool>) {
    worker.counters.total_connections.one();
    match client {
        Client::Tcp(stream) => {
            if let Ok(stream) = TcpStream::from_std(stream) {
                Connection::new(worker, stream, ends).serve().await;
            }
        }
        Client::Unix(stream) => {
            if let Ok(stream) = UnixStream::from_std(stream) {
                Connection::new(worker, stream, ends).serve().await;
            }
        }
    }
    drop(permit);
}

/// A server that runs in threads of its own, until it is stopped.
#[derive(Debug)]
pub struct Running {
    pub server: Arc<Server>,
    pub address: SocketAddr,
    /// That of its pages, if it has them.
    pub pages: Option<SocketAddr>,
    stop: oneshot::Sender<()>,
    thread: thread::JoinHandle<io::Result<Ended>>,
}

impl Running {
    /// Serves clients on a port of this machine that is free, and its pages on another where its configuration has them.
    pub fn start(server: Arc<Server>) -> io::Result<Running> {
        let sockets = Sockets::on_any_ports(&server.config)?;
        let (address, pages) = (sockets.address().ok_or(io::ErrorKind::AddrNotAvailable)?, sockets.pages_address());
        let (stop, stopped) = oneshot::channel();
        let runtime = Builder::new_current_thread().enable_all().build()?;
        let serves = Arc::clone(&server);
        let thread = thread::spawn(move || runtime.block_on(serve(serves, sockets, stopped)));
        Ok(Running { server, address, pages, stop, thread })
    }

    /// Ends it: whether all connections had their answers in time.
    #[must_use]
    pub fn stop(self) -> bool {
        let _ = self.stop.send(());
        matches!(self.thread.join(), Ok(Ok(Ended::Drained)))
    }
}
