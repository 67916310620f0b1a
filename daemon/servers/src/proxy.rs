//! What stands between a client and a server, and delays and cuts what goes through: so requests are lost, and replies.
use crate::host::Host;
use nix::sys::timerfd::{ClockId, Expiration, TimerFd, TimerFlags, TimerSetTimeFlags};
use std::sync::atomic::{AtomicU64, Ordering};
use std::sync::Arc;
use std::time::{Duration, Instant};
use tokio::io::unix::AsyncFd;
use tokio::io::{AsyncRead, AsyncReadExt, AsyncWrite, AsyncWriteExt};
use tokio::net::{TcpListener, TcpStream};
use tokio::sync::{mpsc, oneshot, Notify};
use tokio::task::JoinSet;

/// How many pieces of a connection are under way.
const ROOM: usize = 64;

/// Ends with all its connections.
pub struct Proxy {
    port: u16,
    befalls: Arc<Befalls>,
    _serves: oneshot::Sender<()>,
}

/// What befalls connections.
#[derive(Default)]
struct Befalls {
    cut: Notify,
    /// For how long what is sent is under way, in microseconds.
    delay: AtomicU64,
}

impl Proxy {
    /// On a host, at a port of its loopback, before a server's address and port.
    pub fn on(host: &Host, server: &str) -> Proxy {
        let (serves, ends) = oneshot::channel::<()>();
        let (tell, told) = std::sync::mpsc::channel();
        let befalls = Arc::new(Befalls::default());
        let (host, server) = (host.clone(), server.to_owned());
        let shared = Arc::clone(&befalls);
        std::thread::spawn(move || {
            host.enter();
            let mut runtime = tokio::runtime::Builder::new_current_thread();
            runtime.enable_all().build().unwrap().block_on(async {
                let listener = TcpListener::bind("127.0.0.1:0").await.unwrap();
                tell.send(listener.local_addr().unwrap().port()).unwrap();
                tokio::select! {
                    () = serve(listener, server, shared) => {}
                    _ = ends => {}
                }
            });
        });
        Proxy {
            port: told.recv().unwrap(),
            befalls,
            _serves: serves,
        }
    }

    /// Where clients of its host find it.
    pub fn address(&self) -> String {
        format!("127.0.0.1:{}", self.port)
    }

    /// Cuts all connections.
    pub fn cut(&self) {
        self.befalls.cut.notify_waiters();
    }

    /// Has all that is sent from now on be under way for so long, in each direction.
    pub fn set_delay(&self, delay: Duration) {
        let delay = delay.as_micros() as u64;
        self.befalls.delay.store(delay, Ordering::SeqCst);
    }
}

async fn serve(listener: TcpListener, server: String, befalls: Arc<Befalls>) {
    let mut open = JoinSet::new();
    loop {
        let (client, _) = listener.accept().await.unwrap();
        let (server, befalls) = (server.clone(), Arc::clone(&befalls));
        open.spawn(async move {
            tokio::select! {
                () = bring(client, &server, &befalls) => {}
                () = befalls.cut.notified() => {}
            }
        });
    }
}

/// Brings what comes of a client to the server, and back, until one of them ends.
async fn bring(client: TcpStream, server: &str, befalls: &Befalls) {
    let Ok(server) = TcpStream::connect(server).await else {
        return;
    };
    // A small piece does not wait for the answer to the one before.
    let _ = (client.set_nodelay(true), server.set_nodelay(true));
    let ((read, write), (back, forth)) = (client.into_split(), server.into_split());
    tokio::select! {
        () = bring_on(read, forth, befalls) => {}
        () = bring_on(back, write, befalls) => {}
    }
}

/// Brings what is read to where it is written, each piece once its delay is over.
async fn bring_on(
    mut from: impl AsyncRead + Unpin,
    mut to: impl AsyncWrite + Unpin,
    befalls: &Befalls,
) {
    let (send, mut under_way) = mpsc::channel::<(Instant, Vec<u8>)>(ROOM);
    let alarm = Alarm::new();
    let reads = async {
        let mut piece = vec![0; 1 << 16];
        while let Ok(length @ 1..) = from.read(&mut piece).await {
            let delay = Duration::from_micros(befalls.delay.load(Ordering::SeqCst));
            let sent = send.send((Instant::now() + delay, piece[..length].to_vec()));
            if sent.await.is_err() {
                return;
            }
        }
    };
    let writes = async {
        while let Some((at, piece)) = under_way.recv().await {
            alarm.rings_at(at).await;
            if to.write_all(&piece).await.is_err() {
                return;
            }
        }
    };
    tokio::select! {
        () = reads => {}
        () = writes => {}
    }
}

/// Rings at a moment: the runtime's own clock counts whole milliseconds.
struct Alarm(AsyncFd<TimerFd>);

impl Alarm {
    fn new() -> Alarm {
        let flags = TimerFlags::TFD_NONBLOCK | TimerFlags::TFD_CLOEXEC;
        let timer = TimerFd::new(ClockId::CLOCK_MONOTONIC, flags).unwrap();
        Alarm(AsyncFd::new(timer).unwrap())
    }

    async fn rings_at(&self, at: Instant) {
        let left = at.saturating_duration_since(Instant::now());
        if left.is_zero() {
            return;
        }
        let (timer, once) = (self.0.get_ref(), Expiration::OneShot(left.into()));
        timer.set(once, TimerSetTimeFlags::empty()).unwrap();
        let mut rings = self.0.readable().await.unwrap();
        timer.wait().unwrap();
        rings.clear_ready();
    }
}
