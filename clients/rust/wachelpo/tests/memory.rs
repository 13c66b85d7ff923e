//! Three nodes in one process, over disks and a network in memory.

use std::collections::BTreeMap;
use std::io;
use std::sync::atomic::{AtomicBool, AtomicU64, Ordering};
use std::sync::mpsc::{channel, Receiver, Sender};
use std::sync::{Arc, Mutex};
use std::thread;
use std::time::{Duration, Instant};
use wachelpo::{
    Arrival, Arrivals, ClientId, Clock, Deliveries, Delivery, Disk, Inbox, Limits, Members, MemoryDisk, Network,
    NewLog, Node, NodeId, Role, Running, SystemClock,
};

const LONG: Duration = Duration::from_secs(30);

/// The inboxes of all nodes that run.
#[derive(Clone, Default)]
struct Wires(Arc<Mutex<BTreeMap<NodeId, Inbox>>>);

/// What one node is connected by, and where the bytes for its clients go.
struct Wire {
    from: NodeId,
    wires: Wires,
    clients: Sender<(ClientId, Vec<u8>)>,
}

impl Network for Wire {
    fn deliver(&mut self, deliveries: &mut Deliveries) {
        for (delivery, bytes) in deliveries.iter() {
            match delivery {
                Delivery::Frame(to) => {
                    if let Some(inbox) = self.wires.0.lock().unwrap().get(&to) {
                        let mut arrivals = Arrivals::new();
                        arrivals.push(Arrival::Frame(self.from), bytes);
                        inbox.post(&mut arrivals);
                    }
                }
                Delivery::Bytes(client) => {
                    let _ = self.clients.send((client, bytes.to_vec()));
                }
                _ => {}
            }
        }
        deliveries.clear();
    }
}

/// A node that runs, and a client of it.
struct Member {
    running: Running,
    inbox: Inbox,
    answers: Receiver<(ClientId, Vec<u8>)>,
    last_client: u64,
}

fn start(id: u64, disk: &MemoryDisk, wires: &Wires) -> Member {
    start_at(id, disk, wires, SystemClock::new(), Duration::from_millis(200))
}

fn start_at<C: Clock + 'static>(id: u64, disk: &MemoryDisk, wires: &Wires, clock: C, timeout: Duration) -> Member {
    start_on(id, disk.clone(), wires, clock, timeout)
}

fn start_on<D: Disk + 'static, C: Clock + 'static>(
    id: u64,
    disk: D,
    wires: &Wires,
    clock: C,
    timeout: Duration,
) -> Member {
    let id = NodeId(id);
    let mut builder = Node::builder(id).election_timeout(timeout).heartbeat(timeout / 5);
    for other in 1..=3 {
        builder = builder.member(NodeId(other), format!("node{other}:6379"));
    }
    let node = builder.open_at(disk, clock).unwrap();
    let inbox = node.inbox();
    wires.0.lock().unwrap().insert(id, inbox.clone());
    let (clients, answers) = channel();
    let running = node
        .start(Wire {
            from: id,
            wires: wires.clone(),
            clients,
        })
        .unwrap();
    Member {
        running,
        inbox,
        answers,
        last_client: 0,
    }
}

impl Member {
    /// A new client sends this, is answered, and is gone.
    fn ask(&mut self, request: &str) -> String {
        self.ask_for(request, 1)
    }

    /// The same, where the answer has so many lines.
    fn ask_for(&mut self, request: &str, lines: usize) -> String {
        self.last_client += 1;
        let client = ClientId(self.last_client);
        let mut arrivals = Arrivals::new();
        arrivals.push(Arrival::Connected(client), b"");
        arrivals.push(Arrival::Received(client), request.as_bytes());
        self.inbox.post(&mut arrivals);
        let mut answer = String::new();
        while answer.matches("\r\n").count() < lines {
            let (to, bytes) = self.answers.recv_timeout(LONG).expect("it answers");
            if to == client {
                answer.push_str(std::str::from_utf8(&bytes).unwrap());
            }
        }
        arrivals.push(Arrival::Disconnected(client), b"");
        self.inbox.post(&mut arrivals);
        answer
    }
}

fn wait_for<T>(what: &str, mut value: impl FnMut() -> Option<T>) -> T {
    let until = Instant::now() + LONG;
    loop {
        if let Some(value) = value() {
            return value;
        }
        assert!(Instant::now() < until, "{what}");
        thread::sleep(Duration::from_millis(10));
    }
}

/// The place of the node that leads.
fn leader(members: &[Option<Member>]) -> usize {
    wait_for("a leader", || {
        let leads = |member: &Option<Member>| {
            let status = member.as_ref().map(|it| it.running.handle().status().unwrap());
            status.is_some_and(|status| status.role == Role::Leader)
        };
        members.iter().position(leads)
    })
}

#[test]
fn a_leader_that_is_gone_is_replaced_and_nothing_is_lost() {
    let wires = Wires::default();
    let disks = [MemoryDisk::new(), MemoryDisk::new(), MemoryDisk::new()];
    let mut members: Vec<Option<Member>> = (0..3)
        .map(|place| Some(start(place as u64 + 1, &disks[place], &wires)))
        .collect();
    members[0].as_ref().unwrap().running.handle().initialize().unwrap();
    let first = leader(&members);
    assert_eq!(members[first].as_mut().unwrap().ask("SET a 1\r\n"), "+OK\r\n");
    let other = (first + 1) % 3;
    let moved = wait_for("the others know who leads", || {
        let answer = members[other].as_mut().unwrap().ask("SET a 2\r\n");
        answer.starts_with("-MOVED").then_some(answer)
    });
    assert_eq!(moved, format!("-MOVED 15495 node{}:6379\r\n", first + 1));
    let gone = members[first].take().unwrap();
    wires.0.lock().unwrap().remove(&NodeId(first as u64 + 1));
    gone.running.stop().unwrap();
    let second = leader(&members);
    let answer = wait_for("the new leader answers", || {
        let answer = members[second].as_mut().unwrap().ask("INCR a\r\n");
        answer.starts_with(':').then_some(answer)
    });
    assert_eq!(answer, ":2\r\n");
    // what is gone comes back on its disk, and learns what it has missed
    members[first] = Some(start(first as u64 + 1, &disks[first], &wires));
    let applied = members[second]
        .as_ref()
        .unwrap()
        .running
        .handle()
        .status()
        .unwrap()
        .applied;
    wait_for("it has caught up", || {
        let status = members[first].as_ref().unwrap().running.handle().status().unwrap();
        (status.applied >= applied).then_some(())
    });
    for member in members.into_iter().flatten() {
        member.running.stop().unwrap();
    }
}

#[test]
fn a_request_that_is_repeated_takes_effect_once() {
    let wires = Wires::default();
    let mut members: Vec<Option<Member>> = (1..=3).map(|id| Some(start(id, &MemoryDisk::new(), &wires))).collect();
    members[0].as_ref().unwrap().running.handle().initialize().unwrap();
    let first = leader(&members);
    let request = "ONCE 7 1 INCR n\r\n";
    for _ in 0..2 {
        assert_eq!(members[first].as_mut().unwrap().ask(request), ":1\r\n");
    }
    let gone = members[first].take().unwrap();
    wires.0.lock().unwrap().remove(&NodeId(first as u64 + 1));
    gone.running.stop().unwrap();
    // the next leader knows it, too
    let second = leader(&members);
    let member = members[second].as_mut().unwrap();
    let answer = wait_for("the new leader answers", || {
        let answer = member.ask(request);
        answer.starts_with(':').then_some(answer)
    });
    assert_eq!(answer, ":1\r\n");
    let transaction = |number| format!("MULTI\r\nINCR n\r\nGET n\r\nONCE 7 {number} EXEC\r\n");
    let ran = "+OK\r\n+QUEUED\r\n+QUEUED\r\n*2\r\n:2\r\n$1\r\n2\r\n";
    for _ in 0..2 {
        assert_eq!(member.ask_for(&transaction(2), 7), ran);
    }
    assert_eq!(
        member.ask(request),
        "-OUTDATED A later request of this session was run\r\n"
    );
    let reused = "-ERR Another request of this session had this number\r\n";
    assert_eq!(member.ask("ONCE 7 2 INCR n\r\n"), reused);
    assert_eq!(member.ask("GET n\r\n"), "$1\r\n2\r\n");
    for member in members.into_iter().flatten() {
        member.running.stop().unwrap();
    }
}

#[test]
fn members_change_and_are_refused_by_who_doesnt_lead() {
    let wires = Wires::default();
    let disks = [MemoryDisk::new(), MemoryDisk::new(), MemoryDisk::new()];
    let members: Vec<Option<Member>> = (0..3)
        .map(|place| Some(start(place as u64 + 1, &disks[place], &wires)))
        .collect();
    members[0].as_ref().unwrap().running.handle().initialize().unwrap();
    let first = leader(&members);
    let handle = members[first].as_ref().unwrap().running.handle().clone();
    let out = NodeId(((first + 1) % 3) as u64 + 1);
    let mut voters = vec![NodeId(1), NodeId(2), NodeId(3)];
    voters.retain(|id| *id != out);
    let wanted = Members {
        voters,
        learners: vec![],
    };
    wait_for("the change begins", || handle.set_members(wanted.clone()).ok());
    wait_for("two voters are left", || {
        (handle.status().unwrap().members == wanted).then_some(())
    });
    let follower = (first + 2) % 3;
    let refusal = members[follower]
        .as_ref()
        .unwrap()
        .running
        .handle()
        .set_members(wanted)
        .unwrap_err();
    assert!(matches!(refusal, wachelpo::Error::NotLeader(_)), "{refusal}");
}

#[test]
fn a_client_that_asks_for_much_at_once_is_answered_in_order() {
    let wires = Wires::default();
    let disk = MemoryDisk::new();
    let node = Node::builder(NodeId(1)).member(NodeId(1), "").open(disk).unwrap();
    let inbox = node.inbox();
    let (clients, answers) = channel();
    let running = node
        .start(Wire {
            from: NodeId(1),
            wires,
            clients,
        })
        .unwrap();
    running.handle().initialize().unwrap();
    wait_for("it leads", || {
        (running.handle().status().unwrap().role == Role::Leader).then_some(())
    });
    let mut arrivals = Arrivals::new();
    arrivals.push(Arrival::Connected(ClientId(1)), b"");
    for part in 0..50 {
        let requests: String = (0..100)
            .map(|_| format!("SET k{part} {}\r\nINCR n\r\n", "v".repeat(200)))
            .collect();
        arrivals.push(Arrival::Received(ClientId(1)), requests.as_bytes());
    }
    inbox.post(&mut arrivals);
    let expected: String = (1..=5_000).map(|sum| format!("+OK\r\n:{sum}\r\n")).collect();
    let mut seen = String::new();
    while seen.len() < expected.len() {
        let (_, bytes) = answers.recv_timeout(LONG).expect("all is answered");
        seen.push_str(&String::from_utf8(bytes).unwrap());
    }
    let differs = seen
        .lines()
        .zip(expected.lines())
        .enumerate()
        .find(|(_, (seen, expected))| seen != expected);
    assert_eq!(differs, None);
    running.stop().unwrap();
}

/// Clocks that are set from outside, in milliseconds.
#[derive(Clone, Default)]
struct Hands(Arc<(AtomicU64, AtomicU64)>);

impl Clock for Hands {
    fn elapsed(&self) -> Duration {
        Duration::from_millis(self.0 .0.load(Ordering::Relaxed))
    }

    fn time_of_day(&self) -> Duration {
        Duration::from_millis(self.0 .1.load(Ordering::Relaxed))
    }
}

#[test]
fn what_is_said_does_not_wait_for_a_later_write() {
    let (hands, gate) = (Hands::default(), Arc::default());
    let disk = Slow {
        gate: Arc::clone(&gate),
        ..Slow::default()
    };
    let builder = Node::builder(NodeId(1)).member(NodeId(1), "");
    let node = builder.open_at(disk, hands.clone()).unwrap();
    let inbox = node.inbox();
    let (clients, answers) = channel();
    let wire = Wire {
        from: NodeId(1),
        wires: Wires::default(),
        clients,
    };
    let running = node.start(wire).unwrap();
    running.handle().initialize().unwrap();
    wait_for("it leads", || {
        hands.0 .0.fetch_add(10, Ordering::Relaxed);
        (running.handle().status().unwrap().role == Role::Leader).then_some(())
    });
    // from here on its clock stands still, so that it writes nothing by itself
    let mut arrivals = Arrivals::new();
    for client in [1, 2] {
        arrivals.push(Arrival::Connected(ClientId(client)), b"");
        arrivals.push(Arrival::Received(ClientId(client)), b"SET a 0\r\n");
    }
    inbox.serve(&mut arrivals);
    for client in [1, 2] {
        let answer = answers.recv_timeout(LONG).unwrap();
        assert_eq!(answer, (ClientId(client), b"+OK\r\n".to_vec()));
    }
    let shut = gate.lock().unwrap();
    arrivals.push(Arrival::Received(ClientId(1)), b"PING\r\n");
    arrivals.push(Arrival::Received(ClientId(2)), b"SET a 1\r\n");
    // (it comes back, so whoever serves can send what was said)
    inbox.serve(&mut arrivals);
    let answer = answers.recv_timeout(LONG).unwrap();
    assert_eq!(answer, (ClientId(1), b"+PONG\r\n".to_vec()));
    assert!(answers.try_recv().is_err());
    drop(shut);
    let answer = answers.recv_timeout(LONG).unwrap();
    assert_eq!(answer, (ClientId(2), b"+OK\r\n".to_vec()));
    running.stop().unwrap();
}

/// A clock that stands still, and then leaps.
struct Leaping {
    began: Instant,
    leap: Duration,
}

impl Clock for Leaping {
    fn elapsed(&self) -> Duration {
        self.leap * (self.began.elapsed().as_millis() / 20) as u32
    }

    fn time_of_day(&self) -> Duration {
        SystemClock::new().time_of_day()
    }
}

/// What the leader answers, whichever node that is, unless it refuses.
fn ask_leader(members: &mut [Member], request: &str) -> String {
    wait_for("a leader answers", || {
        let mut answers = members.iter_mut().map(|member| member.ask(request));
        answers.find(|answer| !answer.starts_with("-MOVED") && !answer.starts_with("-CLUSTERDOWN"))
    })
}

#[test]
fn a_leader_serves_whose_clock_leaps_over_its_lease() {
    let wires = Wires::default();
    let timeout = Duration::from_secs(1);
    let start = |id| {
        let began = Instant::now();
        let leap = timeout * 2;
        start_at(id, &MemoryDisk::new(), &wires, Leaping { began, leap }, timeout)
    };
    let mut members: Vec<Member> = (1..=3).map(start).collect();
    members[0].running.handle().initialize().unwrap();
    for count in 1..=20 {
        assert_eq!(ask_leader(&mut members, "INCR n\r\n"), format!(":{count}\r\n"));
        thread::sleep(Duration::from_millis(20));
    }
    for member in members {
        member.running.stop().unwrap();
    }
}

/// A clock whose time of day stands still.
struct Still(SystemClock);

impl Clock for Still {
    fn elapsed(&self) -> Duration {
        self.0.elapsed()
    }

    fn time_of_day(&self) -> Duration {
        Duration::from_secs(1_000_000_000)
    }
}

#[test]
fn queries_add_nothing_to_the_log_once_it_knows_the_time() {
    let wires = Wires::default();
    let disks = [MemoryDisk::new(), MemoryDisk::new(), MemoryDisk::new()];
    let start = |place: usize| {
        let clock = Still(SystemClock::new());
        Some(start_at(
            place as u64 + 1,
            &disks[place],
            &wires,
            clock,
            Duration::from_secs(1),
        ))
    };
    let mut members: Vec<Option<Member>> = (0..3).map(start).collect();
    members[0].as_ref().unwrap().running.handle().initialize().unwrap();
    let place = leader(&members);
    let leader = members[place].as_mut().unwrap();
    assert_eq!(leader.ask("SET a 1\r\n"), "+OK\r\n");
    let length = || disks[place].clone().read().unwrap().len();
    let before = length();
    for _ in 0..100 {
        assert_eq!(leader.ask("GET a\r\n"), "$1\r\n1\r\n");
    }
    // moments are reserved now and then; a marker for each query would be 2,400 bytes
    assert!(length() - before < 1000, "{} bytes more", length() - before);
    // of queries and updates that are sent together, each sees those before it
    assert_eq!(
        leader.ask_for("GET a\r\nSET a 2\r\nGET a\r\n", 5),
        "$1\r\n1\r\n+OK\r\n$1\r\n2\r\n"
    );
    for member in members.into_iter().flatten() {
        member.running.stop().unwrap();
    }
}

/// A next number that nobody would guess.
fn next(random: &mut u64) -> u64 {
    *random = random.wrapping_mul(6_364_136_223_846_793_005).wrapping_add(1);
    *random >> 33
}

#[test]
fn clocks_that_jump_lose_nothing() {
    let wires = Wires::default();
    let hands: Vec<Hands> = (0..3).map(|_| Hands::default()).collect();
    let start = |place: usize| {
        let timeout = Duration::from_millis(500);
        start_at(
            place as u64 + 1,
            &MemoryDisk::new(),
            &wires,
            hands[place].clone(),
            timeout,
        )
    };
    let mut members: Vec<Member> = (0..3).map(start).collect();
    members[0].running.handle().initialize().unwrap();
    let is_over = Arc::new(AtomicU64::new(0));
    let jumps = {
        let (hands, is_over) = (hands.clone(), is_over.clone());
        thread::spawn(move || {
            let mut random = 7;
            while is_over.load(Ordering::Relaxed) == 0 {
                thread::sleep(Duration::from_millis(5));
                for Hands(hands) in &hands {
                    // mostly on as it should be; now and then by an hour, back by up to a second, or not at all
                    match next(&mut random) % 100 {
                        0 => hands.0.fetch_add(3_600_000, Ordering::Relaxed),
                        1 => {
                            let back = next(&mut random) % 1000;
                            hands
                                .0
                                .fetch_update(Ordering::Relaxed, Ordering::Relaxed, |now| {
                                    Some(now.saturating_sub(back))
                                })
                                .unwrap()
                        }
                        2..=9 => 0,
                        _ => hands.0.fetch_add(5, Ordering::Relaxed),
                    };
                    hands.1.store(next(&mut random) % 1_000_000_000, Ordering::Relaxed);
                }
            }
        })
    };
    let until = Instant::now() + Duration::from_secs(5);
    let (mut done, mut unknown) = (0, 0);
    while Instant::now() < until || done < 20 {
        let answer = ask_leader(&mut members, "INCR n\r\n");
        match answer.strip_prefix(':') {
            Some(sum) => {
                let sum: u64 = sum.trim_end().parse().unwrap();
                done += 1;
                assert!(
                    (done..=done + unknown).contains(&sum),
                    "{sum} after {done} and {unknown} unknown"
                );
            }
            None => unknown += 1,
        }
    }
    is_over.store(1, Ordering::Relaxed);
    jumps.join().unwrap();
    for member in members {
        member.running.stop().unwrap();
    }
}

#[test]
fn what_has_expired_stays_so_though_the_time_of_day_goes_back() {
    let (wires, hands) = (Wires::default(), Hands::default());
    let Hands(set) = &hands;
    set.1.store(1_000_000_000, Ordering::Relaxed);
    let node = Node::builder(NodeId(1))
        .member(NodeId(1), "")
        .open_at(MemoryDisk::new(), hands.clone())
        .unwrap();
    let inbox = node.inbox();
    let (clients, answers) = channel();
    let running = node
        .start(Wire {
            from: NodeId(1),
            wires,
            clients,
        })
        .unwrap();
    running.handle().initialize().unwrap();
    let mut member = Member {
        running,
        inbox,
        answers,
        last_client: 0,
    };
    let mut ask = |request: &str| {
        // a tick tells the time
        set.0.fetch_add(20, Ordering::Relaxed);
        thread::sleep(Duration::from_millis(50));
        member.ask(&format!("{request}\r\n"))
    };
    wait_for("it leads", || (ask("SET a 1 PX 10000") == "+OK\r\n").then_some(()));
    assert_eq!(ask("GET a"), "$1\r\n1\r\n");
    set.1.fetch_add(20_000, Ordering::Relaxed);
    assert_eq!(ask("GET a"), "$-1\r\n");
    set.1.fetch_sub(3_600_000, Ordering::Relaxed);
    assert_eq!(ask("GET a"), "$-1\r\n");
    // a span counts from the greatest time that the log knows
    assert_eq!(ask("SET b 1 PX 10000"), "+OK\r\n");
    assert_eq!(ask("GET b"), "$1\r\n1\r\n");
    // of a node that was stopped for two hours: from when the request came
    set.0.fetch_add(7_200_000, Ordering::Relaxed);
    set.1.fetch_add(7_200_000, Ordering::Relaxed);
    assert_eq!(member.ask("SET c 1 PX 10000\r\n"), "+OK\r\n");
    set.0.fetch_add(20, Ordering::Relaxed);
    thread::sleep(Duration::from_millis(50));
    assert_eq!(member.ask("GET c\r\n"), "$1\r\n1\r\n");
    member.running.stop().unwrap();
}

/// A log that fails once so much is on it.
struct Failing(MemoryDisk);

impl Disk for Failing {
    fn read(&mut self) -> io::Result<Vec<u8>> {
        self.0.read()
    }

    fn cut(&mut self, end: u64) -> io::Result<()> {
        self.0.cut(end)
    }

    fn append(&mut self, bytes: &[u8]) -> io::Result<()> {
        self.0.append(bytes)?;
        match self.0.read()?.len() {
            0..1000 => Ok(()),
            _ => Err(io::Error::other("the disk is broken")),
        }
    }

    fn begin(&mut self, count: u64) -> io::Result<Box<dyn NewLog>> {
        self.0.begin(count)
    }

    fn take_over(&mut self) -> io::Result<()> {
        self.0.take_over()
    }

    fn give_up(&mut self) {
        self.0.give_up();
    }

    fn generation(&self) -> u64 {
        self.0.generation()
    }
}

#[test]
fn a_disk_that_fails_ends_the_node_before_anything_is_answered() {
    let node = Node::builder(NodeId(1))
        .member(NodeId(1), "")
        .open(Failing(MemoryDisk::new()))
        .unwrap();
    let inbox = node.inbox();
    let (clients, answers) = channel();
    let running = node
        .start(Wire {
            from: NodeId(1),
            wires: Wires::default(),
            clients,
        })
        .unwrap();
    running.handle().initialize().unwrap();
    wait_for("it leads", || {
        (running.handle().status().unwrap().role == Role::Leader).then_some(())
    });
    let mut arrivals = Arrivals::new();
    arrivals.push(Arrival::Connected(ClientId(1)), b"");
    arrivals.push(
        Arrival::Received(ClientId(1)),
        format!("SET a {}\r\n", "v".repeat(1000)).as_bytes(),
    );
    inbox.post(&mut arrivals);
    let error = running.wait().unwrap_err();
    assert_eq!(error.to_string(), "disk: the disk is broken");
    assert!(answers.try_recv().is_err());
}

#[test]
fn more_than_one_write_is_not_cut_off() {
    let disk = MemoryDisk::new();
    let member = alone(disk.clone(), 1 << 30);
    member.running.stop().unwrap();
    let whole = disk.clone().read().unwrap();
    let open = |count: usize| {
        let mut limits = Limits::default();
        (limits.message_entries, limits.value_bytes) = (1, 1000);
        (limits.waiting_bytes, limits.unwritten_bytes, limits.frame_bytes) = (10_000, 10_000, 20_000);
        let builder = Node::builder(NodeId(1)).member(NodeId(1), "").limits(limits);
        builder.open(MemoryDisk::of([&whole[..], &vec![7; count]].concat()))
    };
    open(40_000).unwrap();
    let error = open(40_001).map(drop).unwrap_err();
    assert!(
        error
            .to_string()
            .contains("one write has 40000 at most; nothing was changed"),
        "{error}"
    );
}

/// A disk that is appended to once it is let, and whose new logs are so too, if there is room for them.
#[derive(Clone, Default)]
struct Slow {
    disk: MemoryDisk,
    gate: Arc<Mutex<()>>,
    beside: Arc<Mutex<()>>,
    is_full: Arc<AtomicBool>,
}

struct SlowLog(Slow, Box<dyn NewLog>);

impl NewLog for SlowLog {
    fn append(&mut self, bytes: &[u8]) -> io::Result<()> {
        let SlowLog(slow, log) = self;
        let _open = slow.beside.lock().unwrap();
        match slow.is_full.load(Ordering::Relaxed) {
            true => Err(io::ErrorKind::StorageFull.into()),
            false => log.append(bytes),
        }
    }
}

impl Disk for Slow {
    fn read(&mut self) -> io::Result<Vec<u8>> {
        self.disk.read()
    }

    fn cut(&mut self, end: u64) -> io::Result<()> {
        self.disk.cut(end)
    }

    fn append(&mut self, bytes: &[u8]) -> io::Result<()> {
        let _open = self.gate.lock().unwrap();
        self.disk.append(bytes)
    }

    fn begin(&mut self, count: u64) -> io::Result<Box<dyn NewLog>> {
        Ok(Box::new(SlowLog(self.clone(), self.disk.begin(count)?)))
    }

    fn take_over(&mut self) -> io::Result<()> {
        self.disk.take_over()
    }

    fn give_up(&mut self) {
        self.disk.give_up();
    }

    fn generation(&self) -> u64 {
        self.disk.generation()
    }
}

/// A disk of which each write takes so many milliseconds.
#[derive(Clone, Default)]
struct Sleepy {
    disk: MemoryDisk,
    delay: Arc<AtomicU64>,
}

impl Disk for Sleepy {
    fn read(&mut self) -> io::Result<Vec<u8>> {
        self.disk.read()
    }

    fn cut(&mut self, end: u64) -> io::Result<()> {
        self.disk.cut(end)
    }

    fn append(&mut self, bytes: &[u8]) -> io::Result<()> {
        thread::sleep(Duration::from_millis(self.delay.load(Ordering::Relaxed)));
        self.disk.append(bytes)
    }

    fn begin(&mut self, count: u64) -> io::Result<Box<dyn NewLog>> {
        self.disk.begin(count)
    }

    fn take_over(&mut self) -> io::Result<()> {
        self.disk.take_over()
    }

    fn give_up(&mut self) {
        self.disk.give_up();
    }

    fn generation(&self) -> u64 {
        self.disk.generation()
    }
}

#[test]
fn disks_slower_than_the_election_timeout_delay_writes_alone() {
    let (wires, delay) = (Wires::default(), Arc::<AtomicU64>::default());
    let timeout = Duration::from_millis(600);
    let start = |id| {
        let disk = Sleepy {
            delay: delay.clone(),
            ..Sleepy::default()
        };
        Some(start_on(id, disk, &wires, SystemClock::new(), timeout))
    };
    let mut members: Vec<Option<Member>> = (1..=3).map(start).collect();
    members[0].as_ref().unwrap().running.handle().initialize().unwrap();
    let place = leader(&members);
    let term = |members: &[Option<Member>]| {
        let status = members[place].as_ref().unwrap().running.handle().status().unwrap();
        assert_eq!(status.role, Role::Leader);
        status.term
    };
    let leader = members[place].as_mut().unwrap();
    assert_eq!(leader.ask("SET a 0\r\n"), "+OK\r\n");
    let before = term(&members);
    delay.store(900, Ordering::Relaxed);
    for count in 1..=3 {
        let leader = members[place].as_mut().unwrap();
        let begun = Instant::now();
        assert_eq!(leader.ask("INCR n\r\n"), format!(":{count}\r\n"));
        assert!(begun.elapsed() >= Duration::from_millis(1800), "it waits for two disks");
        // what the node knows is told meanwhile
        assert_eq!(term(&members), before);
    }
    delay.store(0, Ordering::Relaxed);
    let leader = members[place].as_mut().unwrap();
    assert_eq!(leader.ask("INCR n\r\n"), ":4\r\n");
    assert_eq!(term(&members), before);
    for member in members.into_iter().flatten() {
        member.running.stop().unwrap();
    }
}

/// A lone node whose log is replaced after so many bytes.
fn alone(disk: impl Disk + 'static, log_bytes: u64) -> Member {
    let builder = Node::builder(NodeId(1)).member(NodeId(1), "").log_bytes(log_bytes);
    let node = builder.open(disk).unwrap();
    let (inbox, is_new) = (node.inbox(), node.is_new());
    let (clients, answers) = channel();
    let running = node
        .start(Wire {
            from: NodeId(1),
            wires: Wires::default(),
            clients,
        })
        .unwrap();
    if is_new {
        running.handle().initialize().unwrap();
    }
    let mut member = Member {
        running,
        inbox,
        answers,
        last_client: 0,
    };
    wait_for("it leads", || {
        (member.ask("SET leads 1\r\n") == "+OK\r\n").then_some(())
    });
    member
}

impl Member {
    /// Sets these keys to 500 bytes each.
    fn fill(&mut self, keys: std::ops::Range<u32>) {
        for key in keys {
            assert_eq!(self.ask(&format!("SET {key} {key:0500}\r\n")), "+OK\r\n");
        }
    }

    fn assert_filled(&mut self, keys: std::ops::Range<u32>) {
        for key in keys {
            assert_eq!(
                self.ask_for(&format!("GET {key}\r\n"), 2),
                format!("$500\r\n{key:0500}\r\n")
            );
        }
    }
}

#[test]
fn a_new_log_is_written_while_the_old_one_goes_on() {
    let slow = Slow::default();
    let closed = slow.beside.lock().unwrap();
    let mut member = alone(slow.clone(), 10_000);
    member.fill(0..100);
    assert_eq!(slow.generation(), 0);
    // a stop leaves the old log
    let mut other = alone(MemoryDisk::of(slow.clone().read().unwrap()), 1 << 30);
    other.assert_filled(0..100);
    other.running.stop().unwrap();
    drop(closed);
    wait_for("the new log has its place", || (slow.generation() > 0).then_some(()));
    member.fill(100..120);
    member.running.stop().unwrap();
    let mut member = alone(slow.clone(), 1 << 30);
    member.assert_filled(0..120);
    member.running.stop().unwrap();
}

#[test]
fn a_new_log_of_many_pieces_has_what_came_between_them() {
    const LARGE: usize = 600_000;
    let slow = Slow::default();
    let closed = slow.beside.lock().unwrap();
    let mut member = alone(slow.clone(), 20 << 20);
    let large = |key: u32| format!("{key:06}").repeat(LARGE / 6);
    for key in 10..60 {
        let set = format!("*3\r\n$3\r\nSET\r\n$2\r\n{key}\r\n${LARGE}\r\n{}\r\n", large(key));
        assert_eq!(member.ask(&set), "+OK\r\n");
    }
    // so few of its pieces wait for the disk that most are still to come
    member.fill(100..150);
    assert_eq!(slow.generation(), 0);
    drop(closed);
    member.fill(150..200);
    wait_for("the new log has its place", || (slow.generation() > 0).then_some(()));
    member.fill(200..220);
    member.running.stop().unwrap();
    assert!(slow.clone().read().unwrap().len() > 50 * LARGE);
    let mut member = alone(slow.clone(), 1 << 30);
    member.assert_filled(100..220);
    for key in 10..60 {
        let answer = member.ask_for(&format!("GET {key}\r\n"), 2);
        assert!(answer == format!("${LARGE}\r\n{}\r\n", large(key)), "{key}");
    }
    member.running.stop().unwrap();
}

#[test]
fn a_new_log_without_room_is_given_up_and_begun_again() {
    let slow = Slow::default();
    slow.is_full.store(true, Ordering::Relaxed);
    let mut member = alone(slow.clone(), 10_000);
    member.fill(0..100);
    assert_eq!(slow.generation(), 0);
    slow.is_full.store(false, Ordering::Relaxed);
    member.fill(0..400);
    wait_for("the new log has its place", || (slow.generation() > 0).then_some(()));
    member.running.stop().unwrap();
    let mut member = alone(slow.clone(), 1 << 30);
    member.assert_filled(0..400);
    member.running.stop().unwrap();
}
