//! Clients that ask for much, and don't read what they are answered: they take no more memory than they may.

use std::fs;
use std::io::{ErrorKind, Read, Write};
use std::net::{SocketAddr, TcpListener, TcpStream};
use std::path::PathBuf;
use std::sync::Arc;
use std::thread;
use std::time::{Duration, Instant};
use wachelpo::{ConnectionLimits, Folder, MemoryDisk, Metrics, Node, NodeId, Running, Tcp};

const LONG: Duration = Duration::from_secs(60);
const VALUE: usize = 256 << 10;
/// How many bytes an answer has: its length in a line, the value, the line's end.
const ANSWER: usize = "$262144\r\n".len() + VALUE + 2;

/// A server of one node, whose value `large` has many bytes.
struct Server {
    address: SocketAddr,
    metrics: Arc<Metrics>,
    running: Option<Running>,
    folder: PathBuf,
    password: Option<&'static str>,
}

impl Server {
    fn start(name: &str, set: impl FnOnce(&mut ConnectionLimits)) -> Self {
        Server::start_with(name, None, set)
    }

    fn start_with(name: &str, password: Option<&'static str>, set: impl FnOnce(&mut ConnectionLimits)) -> Self {
        let folder = std::env::temp_dir().join(format!("wachelpo-answers-{}-{name}", std::process::id()));
        let _ = fs::remove_dir_all(&folder);
        let id = NodeId(1);
        let address = TcpListener::bind("127.0.0.1:0").unwrap().local_addr().unwrap();
        Folder::create(&folder, id, "answers").unwrap();
        let held = Folder::open(&folder, id, "answers").unwrap();
        let mut node = Node::builder(id).member(id, address.to_string());
        if let Some(password) = password {
            node = node.password(password);
        }
        let node = node.open(MemoryDisk::new()).unwrap();
        let mut limits = ConnectionLimits::default();
        set(&mut limits);
        let mut tcp = Tcp::builder(id, "answers").listen(address).limits(limits);
        if password.is_some() {
            tcp = tcp.clients_have_a_password();
        }
        let tcp = tcp.start(held, &node).unwrap();
        let metrics = node.metrics();
        let running = node.start(tcp).unwrap();
        running.handle().initialize().unwrap();
        let server = Server {
            address,
            metrics,
            running: Some(running),
            folder,
            password,
        };
        server.set_large();
        server
    }

    fn connect(&self) -> TcpStream {
        let mut stream = self.connect_unknown();
        if let Some(password) = self.password {
            stream.write_all(format!("AUTH {password}\r\n").as_bytes()).unwrap();
            let mut answer = [0; 5];
            stream.read_exact(&mut answer).unwrap();
            assert_eq!(&answer, b"+OK\r\n");
        }
        stream
    }

    /// A client that hasn't said the password.
    fn connect_unknown(&self) -> TcpStream {
        let stream = TcpStream::connect(self.address).unwrap();
        stream.set_read_timeout(Some(LONG)).unwrap();
        stream.set_write_timeout(Some(LONG)).unwrap();
        stream
    }

    /// Sets the value, once the node leads.
    fn set_large(&self) {
        let request = format!(
            "*3\r\n$3\r\nSET\r\n$5\r\nlarge\r\n${VALUE}\r\n{}\r\n",
            "v".repeat(VALUE)
        );
        let until = Instant::now() + LONG;
        loop {
            let mut stream = self.connect();
            stream.write_all(request.as_bytes()).unwrap();
            let mut answer = [0; 5];
            stream.read_exact(&mut answer).unwrap();
            if &answer == b"+OK\r\n" {
                return;
            }
            assert!(Instant::now() < until, "no leader");
            thread::sleep(Duration::from_millis(20));
        }
    }

    /// A number of the metrics.
    fn number(&self, name: &str) -> u64 {
        let text = self.metrics.to_text();
        let value = text.lines().find_map(|line| line.strip_prefix(name)?.strip_prefix(' '));
        value.unwrap().parse().unwrap()
    }

    fn wait_for(&self, what: &str, is_so: impl Fn(&Self) -> bool) {
        let until = Instant::now() + LONG;
        while !is_so(self) {
            assert!(Instant::now() < until, "{what}: {}", self.metrics.to_text());
            thread::sleep(Duration::from_millis(5));
        }
    }

    /// Asks for the value so many times, and reads nothing.
    fn ask(&self, count: usize) -> TcpStream {
        let mut stream = self.connect();
        stream.write_all("GET large\r\n".repeat(count).as_bytes()).unwrap();
        stream
    }

    /// A client that reads is answered.
    fn serves(&self) {
        let mut stream = self.ask(3);
        stream.read_exact(&mut vec![0; 3 * ANSWER]).unwrap();
    }
}

impl Drop for Server {
    fn drop(&mut self) {
        if let Some(running) = self.running.take() {
            let _ = running.stop();
        }
        let _ = fs::remove_dir_all(&self.folder);
    }
}

/// How many bytes come until the connection ends.
fn read_all(mut stream: TcpStream) -> usize {
    let mut bytes = Vec::new();
    match stream.read_to_end(&mut bytes) {
        Ok(_) => {}
        Err(error) => assert_eq!(error.kind(), ErrorKind::ConnectionReset),
    }
    bytes.len()
}

#[test]
fn who_reads_nothing_is_cut_off() {
    let server = Server::start("one", |limits| limits.client_bytes = 1 << 20);
    let idle = server.ask(1000);
    server.wait_for("it is cut off", |it| {
        it.number("wachelpo_connections_overrun_total") == 1
    });
    assert!(read_all(idle) < 1000 * ANSWER);
    server.wait_for("nothing waits", |it| it.number("wachelpo_client_waiting_bytes") == 0);
    server.serves();
    assert_eq!(server.number("wachelpo_connections_overrun_total"), 1);
}

#[test]
fn all_who_read_nothing_share_a_limit() {
    const MOST: usize = 8 << 20;
    let server = Server::start("all", |limits| limits.all_client_bytes = MOST);
    let idle: Vec<TcpStream> = (0..8).map(|_| server.ask(100)).collect();
    // what the system holds for a client doesn't count: some megabytes, of 25
    server.wait_for("most are cut off", |it| {
        it.number("wachelpo_connections_overrun_total") >= 6
    });
    server.wait_for("the rest waits", |it| {
        it.number("wachelpo_client_waiting_bytes") <= MOST as u64
    });
    server.serves();
    drop(idle);
    server.wait_for("nothing waits", |it| it.number("wachelpo_client_waiting_bytes") == 0);
}

#[test]
fn who_says_no_password_is_closed_and_keeps_nobody_out() {
    let server = Server::start_with("unknown", Some("secret"), |limits| {
        (limits.clients, limits.unknown_clients) = (20, 8);
        limits.unknown = Duration::from_secs(2);
    });
    let known = server.connect();
    let mut silent: Vec<TcpStream> = (0..50).map(|_| server.connect_unknown()).collect();
    server.wait_for("the oldest make room", |it| it.number("wachelpo_connections") == 9);
    assert_eq!(silent[0].read(&mut [0]).unwrap_or(0), 0);
    // a refusal isn't the password, and nor is what all may say
    for stream in &mut silent[45..] {
        stream.write_all(b"GET large\r\nRESET\r\n").unwrap();
    }
    server.serves();
    server.wait_for("the others are late", |it| it.number("wachelpo_connections") == 1);
    drop(known);
    // who is known may be silent, and if all are known one more is told that there are too many
    let known: Vec<TcpStream> = (0..20).map(|_| server.connect()).collect();
    let mut more = server.connect_unknown();
    let mut text = String::new();
    let _ = more.read_to_string(&mut text);
    assert_eq!(text, "-ERR max number of clients reached\r\n");
    thread::sleep(Duration::from_secs(3));
    server.wait_for("they stay", |it| {
        it.number("wachelpo_connections") == known.len() as u64
    });
}

#[test]
fn little_is_read_of_who_has_not_said_the_password() {
    let server = Server::start_with("little", Some("secret"), |limits| {
        limits.unknown = Duration::from_secs(2)
    });
    let before = server.number("wachelpo_client_received_bytes_total");
    let mut stream = server.connect_unknown();
    let head = format!("*2\r\n$3\r\nGET\r\n${}\r\n", 1 << 20);
    stream.write_all(head.as_bytes()).unwrap();
    // (the system holds some of it, and the rest isn't taken)
    let _ = stream.write_all(&vec![b'x'; 1 << 20]);
    assert!(read_all(stream) < 200);
    let read = server.number("wachelpo_client_received_bytes_total") - before;
    assert!(read <= 16 << 10, "{read}");
    // what is sent together with it is read once it is known
    let mut stream = server.connect_unknown();
    stream
        .write_all(("AUTH secret\r\n".to_string() + &"PING\r\n".repeat(10_000)).as_bytes())
        .unwrap();
    let mut answers = vec![0; 5 + 7 * 10_000];
    stream.read_exact(&mut answers).unwrap();
    assert!(answers.starts_with(b"+OK\r\n+PONG\r\n") && answers.ends_with(b"+PONG\r\n"));
}

#[test]
fn a_node_that_is_stopped_leaves_nothing_behind() {
    let mut server = Server::start("stopped", |_| {});
    let mut client = server.connect();
    server.running.take().unwrap().stop().unwrap();
    // nobody waits for it, its address is free and so is its folder
    assert_eq!(client.read(&mut [0]).unwrap_or(0), 0);
    assert!(TcpStream::connect(server.address).is_err());
    drop(Folder::open(&server.folder, NodeId(1), "answers").unwrap());
}
