//! Kills, stops, cuts off, slows and changes the members of a cluster of `wachelpo` servers, harms their files, and sends them garbage, while
//! clients write and read by RESP; then says whether what the clients saw is linearizable over all keys together, so that no acknowledged write is lost.
//!
//!     torture [SECONDS]     of trouble, half with three voters and half with five; by default 60
//!
//! `WACHELPO` names the program; by default `target/release/wachelpo` below the folder of the workspace. `SEED` repeats what is done, `KEEP`
//! leaves the nodes' folders, with `HARMS` half of the troubles are harms of files, and copies.
//! Exit status: 0 for no violation, 1 for any, 2 if it can't be said.

mod client;
mod cluster;
mod harm;
mod proxy;
mod random;
mod resp;

use crate::client::{Client, Seen};
use crate::cluster::Cluster;
use crate::harm::Harm;
use crate::proxy::State;
use crate::random::Random;
use crate::resp::{Connection, Reply};
use histories::{check, keys, Operation, Verdict, STATES};
use std::collections::BTreeSet;
use std::error::Error;
use std::io::{self, Write};
use std::net::{SocketAddr, TcpStream};
use std::path::{Path, PathBuf};
use std::sync::atomic::{AtomicBool, Ordering};
use std::sync::Mutex;
use std::thread;
use std::time::{Duration, Instant};

const CLIENTS: u64 = 8;
/// How many registers and counters there are at a time, and how long each is used.
const REGISTERS: u64 = 4;
const USED: Duration = Duration::from_secs(1);
/// After how many operations of unknown fate others are used.
const UNKNOWN: u64 = 4;

/// What was done to a cluster.
#[derive(Default, Debug)]
struct Trouble {
    kills: u64,
    stops: u64,
    cuts: u64,
    slow: u64,
    ends: u64,
    changes: u64,
    garbage: u64,
    large: u64,
    harms: u64,
    /// Harms that a node didn't tell, but served with.
    untold: Vec<Harm>,
    ended: Vec<u64>,
}

fn program() -> PathBuf {
    let default = Path::new(env!("CARGO_MANIFEST_DIR")).join("../target/release/wachelpo");
    std::env::var_os("WACHELPO").map_or(default, PathBuf::from)
}

fn folder(name: &str) -> PathBuf {
    std::env::temp_dir().join(format!("wachelpo-torture-{}-{name}", std::process::id()))
}

/// Waits until some node answers a write.
fn wait_for_leader(cluster: &Cluster) -> io::Result<()> {
    let until = Instant::now() + Duration::from_secs(120);
    while Instant::now() < until {
        for id in &cluster.ids {
            let connection = Connection::open(cluster.address(*id), Duration::from_secs(1));
            let replies = connection.and_then(|mut it| it.ask(&[vec!["SET", "first", "1"]]));
            if replies.is_ok_and(|replies| matches!(replies[..], [Reply::Simple(_)])) {
                return Ok(());
            }
        }
        thread::sleep(Duration::from_millis(50));
    }
    Err(io::Error::other(format!("no leader was elected\n{}", cluster.errors())))
}

/// A cluster of so many voters, which has a leader; one more node is there, to become a member.
fn begin(name: &str, voters: u64) -> io::Result<Cluster> {
    let mut cluster = Cluster::new(&program(), &folder(name), voters + 1, voters)?;
    for id in cluster.ids.clone() {
        cluster.start(id)?;
    }
    wait_for_leader(&cluster)?;
    Ok(cluster)
}

/// Sends what is no request, to all that listens.
fn garbage(cluster: &Cluster, id: u64, random: &mut Random) {
    let texts: [&[u8]; 5] = [
        b"*1000000000\r\n",
        b"*2\r\n$99999999999\r\n",
        b"\xff\xff\xff\xff\xff\xff\xff\xff",
        b"GET / HTTP/1.1\r\n\r\n",
        b"wachelpo\x01\0\0\0\0\0\0\0",
    ];
    let text = texts[random.below(5) as usize];
    for address in [cluster.address(id), cluster.peers_address(id)] {
        if let Ok(mut stream) = TcpStream::connect_timeout(&address, Duration::from_millis(200)) {
            let _ = stream.write_all(text);
            let noise: Vec<u8> = (0..4096).map(|_| random.below(256) as u8).collect();
            let _ = stream.write_all(&noise);
        }
    }
}

/// Writes a value of 900 KB, at whichever node takes it.
fn large(cluster: &Cluster) {
    let value = "v".repeat(900_000);
    for id in &cluster.ids {
        if let Ok(mut connection) = Connection::open(cluster.address(*id), Duration::from_millis(500)) {
            let replies = connection.ask(&[vec!["SET", "large", &value]]);
            if replies.is_ok_and(|replies| matches!(replies[..], [Reply::Simple(_)])) {
                return;
            }
        }
    }
}

/// Does one thing to the cluster, and undoes it if it is to be undone.
fn trouble_once(cluster: &mut Cluster, voters: u64, random: &mut Random, done: &mut Trouble) -> io::Result<()> {
    let all = cluster.ids.clone();
    let some = all[random.below(all.len() as u64) as usize];
    let is_harm = std::env::var_os("HARMS").is_some() && random.below(2) == 0;
    match if is_harm { 19 } else { random.below(22) } {
        0..=7 => {
            let count = if random.below(8) == 0 {
                all.len() as u64
            } else {
                1 + random.below(2)
            };
            for _ in 0..count {
                let id = all[random.below(all.len() as u64) as usize];
                if cluster.is_running(id) {
                    cluster.kill(id)?;
                    done.kills += 1;
                }
            }
        }
        8..=9 => {
            cluster.stop(some);
            thread::sleep(Duration::from_millis(100 + random.below(2000)));
            cluster.go_on(some);
            done.stops += 1;
        }
        10..=12 => {
            let side: Vec<u64> = all.iter().copied().filter(|_| random.below(2) == 0).collect();
            let one_way = random.below(4) == 0;
            for from in &all {
                for to in &all {
                    let apart = side.contains(from) && !side.contains(to);
                    let back = side.contains(to) && !side.contains(from) && !one_way;
                    if apart || back {
                        cluster.way(*from, *to).set(State::Cut);
                    }
                }
            }
            thread::sleep(Duration::from_millis(300 + random.below(2500)));
            cluster.ways().for_each(|way| way.set(State::Open));
            done.cuts += 1;
        }
        13 => {
            for to in all.iter().filter(|to| **to != some) {
                cluster.way(some, *to).set(State::Slow);
                cluster.way(*to, some).set(State::Slow);
            }
            thread::sleep(Duration::from_millis(300 + random.below(1500)));
            cluster.ways().for_each(|way| way.set(State::Open));
            done.slow += 1;
        }
        14 => {
            cluster.ways().for_each(|way| way.end());
            done.ends += 1;
        }
        15..=16 => {
            let what = if random.below(2) == 0 { "join" } else { "leave" };
            // so that no less than three are left
            let words = [what, &some.to_string()];
            let count = cluster.ask(&["status"]).and_then(|text| voters_in(&text));
            if (what == "join" || count.is_some_and(|count| count > 3.max(voters as usize - 1)))
                && cluster.ask(&words).is_some()
            {
                done.changes += 1;
            }
        }
        17..=18 => {
            garbage(cluster, some, random);
            done.garbage += 1;
        }
        19..=20 => {
            let harm = Harm::any(random);
            let came = harm::suffer(cluster, harm, some, random)?;
            done.harms += u64::from(came.is_done);
            done.ended.extend(came.others);
            done.untold.extend((came.is_done && !came.is_told).then_some(harm));
        }
        _ => {
            large(cluster);
            done.large += 1;
        }
    }
    Ok(())
}

/// How many voters a leader's status names.
fn voters_in(text: &str) -> Option<usize> {
    let line = text.lines().find(|line| line.contains("role=leader"))?;
    let voters = line.split(' ').find_map(|word| word.strip_prefix("voters="))?;
    Some(voters.split(',').count())
}

/// Troubles a cluster until the time is over; then all are well again.
fn trouble(cluster: &mut Cluster, voters: u64, until: Instant, random: &mut Random) -> io::Result<Trouble> {
    let mut done = Trouble::default();
    while Instant::now() < until {
        thread::sleep(Duration::from_millis(100 + random.below(400)));
        trouble_once(cluster, voters, random, &mut done)?;
        done.ended.extend(cluster.ended());
        for id in cluster.ids.clone() {
            if !cluster.is_running(id) && random.below(2) == 0 {
                cluster.start(id)?;
            }
        }
    }
    for id in cluster.ids.clone() {
        if !cluster.is_running(id) {
            cluster.start(id)?;
        }
    }
    Ok(done)
}

/// Checks what clients saw. Prints what is wrong, with all operations on the keys, and returns how often it is.
fn judge(operations: &[Operation]) -> Result<u64, Box<dyn Error>> {
    let violations = match check(operations, STATES)? {
        Verdict::Linearizable => return Ok(0),
        Verdict::GaveUp(keys) => return Err(format!("the check of {} gave up", keys.join(" ")).into()),
        Verdict::NotLinearizable(violations) => violations,
    };
    for violation in &violations {
        println!(
            "  not linearizable over {}: after {} of {} answered operations none of these can come next",
            violation.keys.join(" "),
            violation.ordered,
            violation.answered,
        );
        for place in &violation.stuck {
            println!("    {}", operations[*place]);
        }
        println!("  among these:");
        let of_keys = |operation: &&Operation| {
            let mut commands = operation.commands.iter();
            commands.any(|command| violation.keys.iter().any(|key| key == command.key()))
        };
        for operation in operations.iter().filter(of_keys) {
            println!("    {operation}");
        }
    }
    Ok(violations.len() as u64)
}

/// Troubles a cluster while clients use it. Returns how many violations were found.
fn torture(voters: u64, seconds: u64, seed: u64) -> Result<u64, Box<dyn Error>> {
    let mut cluster = begin(&voters.to_string(), voters)?;
    let addresses: Vec<SocketAddr> = cluster.ids.iter().map(|id| cluster.address(*id)).collect();
    let seen = Mutex::new(Seen::default());
    let stop = AtomicBool::new(false);
    let began = Instant::now();
    let done = thread::scope(|scope| -> io::Result<Trouble> {
        for number in 0..CLIENTS {
            let (addresses, seen, stop) = (&addresses, &seen, &stop);
            scope.spawn(move || {
                let mut client = Client::new(&number.to_string(), addresses, began, seed * 1000 + number);
                while !stop.load(Ordering::Relaxed) {
                    // keys with many operations of unknown fate are used no more: the check of them would take too long
                    let unknown = seen.lock().expect("no client panics").unknown / UNKNOWN;
                    let period = began.elapsed().as_millis() / USED.as_millis() + 1_000_000 * u128::from(unknown);
                    client.step(REGISTERS, period, seen);
                }
            });
        }
        let mut random = Random::new(seed);
        let done = trouble(&mut cluster, voters, began + Duration::from_secs(seconds), &mut random);
        stop.store(true, Ordering::Relaxed);
        done
    })?;
    let took = began.elapsed().as_secs_f64();
    wait_for_leader(&cluster)?;
    let mut seen = seen.into_inner()?;
    let mut client = Client::new("end", &addresses, began, seed);
    let named: BTreeSet<String> = keys(&seen.operations).into_iter().map(str::to_string).collect();
    for key in &named {
        let read = client
            .read(key)
            .ok_or_else(|| format!("a read at the end was not answered\n{:?}", cluster.ask(&["status"])))?;
        seen.operations.push(read);
    }
    seen.operations.sort_by_key(|operation| operation.called);
    let mut violations = judge(&seen.operations)?;
    violations += (done.ended.len() + done.untold.len()) as u64;
    let errors = cluster.errors();
    if !errors.is_empty() {
        println!("  nodes wrote: {errors}");
    }
    println!(
        "{voters} voters, {took:.0} s of trouble: {} writes acknowledged ({:.0} a second), {} of unknown fate, {} operations checked over {} keys; \
         {} kills, {} stops, {} cuts, {} slow, {} connections ended, {} changes of members, {} garbage, {} large values, {} harms of files; \
         nodes that ended by themselves: {}, that served with {:?}; violations: {violations}",
        seen.acknowledged,
        seen.acknowledged as f64 / took,
        seen.unknown,
        seen.operations.len(),
        named.len(),
        done.kills,
        done.stops,
        done.cuts,
        done.slow,
        done.ends,
        done.changes,
        done.garbage,
        done.large,
        done.harms,
        done.ended.len(),
        done.untold,
    );
    Ok(violations)
}

fn run() -> Result<u64, Box<dyn Error>> {
    let seconds: u64 = match std::env::args().nth(1) {
        Some(text) => text.parse()?,
        None => 60,
    };
    let seed = std::env::var("SEED")
        .ok()
        .and_then(|text| text.parse().ok())
        .unwrap_or(1);
    let violations = torture(3, seconds / 2, seed)?;
    Ok(violations + torture(5, seconds - seconds / 2, seed + 1)?)
}

fn main() {
    let status = match run() {
        Ok(0) => 0,
        Ok(_) => 1,
        Err(error) => {
            eprintln!("torture: {error}");
            2
        }
    };
    std::process::exit(status);
}
