//! The load of a running cluster: a client at each node that sends as fast as it may.

use crate::bytes::{Bytes, Name};
use crate::cluster::Cluster;
use crate::door::Shared;
use crate::limits::{MOST_HOPS, MOST_MESSAGE, MOST_NODES, MOST_PLACES};
use crate::node::Settings;
use crate::output::print_all;
use crate::session::Session;
use crate::values::{Cred, Event, Op, Refusal, Told};
use crate::worker::Worker;
use std::collections::VecDeque;
use std::sync::atomic::{AtomicBool, AtomicU32, Ordering};
use std::sync::Arc;
use std::thread::{self, JoinHandle};
use std::time::{Duration, Instant};

/// How many events a client takes in a row at most before it submits again.
const MOST_TAKES: u32 = 256;

#[derive(Clone, Copy)]
pub struct Load {
    nodes: u8,
    messages: u32,
    size: usize,
    /// How many messages a client has in flight at most.
    window: u32,
    /// How many calls a client submits in one go at most; 0: it submits them one by one.
    many: u32,
    /// Whether the cluster goes by the proved one's steps.
    locked: bool,
}

impl Load {
    fn total(&self) -> u32 {
        u32::from(self.nodes) * self.messages
    }

    /// How many messages more a client may submit now.
    fn room(&self, tally: &Tally) -> u32 {
        let in_flight = tally.sent - tally.answered;
        (self.messages - tally.sent).min(self.window.saturating_sub(in_flight))
    }

    fn is_done(&self, tally: &Tally) -> bool {
        tally.answered >= self.messages && tally.told >= self.total()
    }
}

/// How far a client is.
#[derive(Clone, Copy, PartialEq)]
struct Tally {
    sent: u32,
    answered: u32,
    told: u32,
    /// A number that the messages and their order come to.
    order: u64,
}

impl Tally {
    /// Takes the event in. False for one that does not come under a load.
    fn add(&mut self, event: &Event) -> bool {
        match &event.told {
            Told::Verdict(verdict) => {
                self.answered += 1;
                verdict.is_allowed()
            }
            Told::Message(message) => {
                let length = message.text.as_slice().len() as u64;
                let step = u64::from(event.place) << 24 ^ u64::from(message.node) << 16 ^ length;
                self.order = (self.order ^ step).wrapping_mul(0x100_0000_01b3);
                self.told += 1;
                true
            }
            _ => false,
        }
    }
}

/// What the clients tell each other.
struct Signals {
    /// How many clients were told of the join of all.
    entered: AtomicU32,
    failed: AtomicBool,
    start: Instant,
}

/// How a client ended, with its times since the start.
struct Ended {
    begin: Duration,
    end: Duration,
    tally: Tally,
}

struct Client {
    session: Session,
    load: Load,
    text: Vec<u8>,
    /// Calls that came back, or were not submitted yet.
    calls: VecDeque<Op>,
    made: u32,
    tally: Tally,
}

impl Client {
    fn new(session: Session, load: Load) -> Client {
        let tally = Tally { sent: 0, answered: 0, told: 0, order: 0 };
        Client { session, load, text: vec![b'x'; load.size], calls: VecDeque::new(), made: 0, tally }
    }

    /// A message more, which begins with its number.
    fn make(&mut self) -> Op {
        for (byte, digit) in self.text.iter_mut().zip(self.made.to_be_bytes().iter()) {
            *byte = *digit;
        }
        self.made += 1;
        Op::Send(Bytes::copy_of(&self.text))
    }

    /// Submits so many one by one at most, until the queue is full.
    fn submit_each(&mut self, most: u32) -> bool {
        for _ in 0..most {
            let op = match self.calls.pop_front() {
                Some(op) => op,
                None => self.make(),
            };
            match self.session.submit(op) {
                Ok(()) => self.tally.sent += 1,
                Err((Refusal::QueueFull, op)) => {
                    self.calls.push_front(op);
                    break;
                }
                Err(_) => return false,
            }
        }
        true
    }

    /// Submits so many in one go, until the queue is full.
    fn submit_many(&mut self, most: u32) -> bool {
        while self.calls.len() < most as usize {
            let op = self.make();
            self.calls.push_back(op);
        }
        let before = self.calls.len();
        let answer = self.session.submit_many(&mut self.calls);
        self.tally.sent += (before - self.calls.len()) as u32;
        match answer {
            Ok(()) | Err(Refusal::QueueFull) => true,
            Err(_) => false,
        }
    }

    /// Submits until the queue is full, or as many as may be submitted now were admitted.
    fn submit_all(&mut self) -> bool {
        let room = self.load.room(&self.tally);
        if self.load.many == 0 {
            self.submit_each(room)
        } else {
            self.submit_many(room.min(self.load.many))
        }
    }

    fn take_all(&mut self) -> bool {
        for _ in 0..MOST_TAKES {
            match self.session.take() {
                None => break,
                Some(event) if self.tally.add(&event) => {}
                Some(_) => return false,
            }
        }
        true
    }

    /// Joins, and waits until it was told of the join of all, and all others were.
    fn enter(&mut self, signals: &Signals) -> bool {
        let mut seen = 0;
        if self.session.submit(Op::Join(Name::copy_of(b"load"))).is_err() {
            return false;
        }
        loop {
            match self.session.take() {
                Some(event) => seen = event.place,
                None if seen >= u32::from(self.load.nodes) => break,
                None => thread::yield_now(),
            }
        }
        signals.entered.fetch_add(1, Ordering::SeqCst);
        while signals.entered.load(Ordering::SeqCst) < u32::from(self.load.nodes) {
            thread::yield_now();
        }
        true
    }

    /// Sends and takes until all is done.
    fn send_and_take(&mut self, signals: &Signals) -> bool {
        while !self.load.is_done(&self.tally) {
            let before = self.tally;
            if signals.failed.load(Ordering::Relaxed) || !self.submit_all() || !self.take_all() {
                return false;
            }
            if self.tally == before {
                thread::yield_now();
            }
        }
        true
    }

    fn run(mut self, signals: &Signals) -> Option<Ended> {
        let mut whole = self.enter(signals);
        let begin = signals.start.elapsed();
        whole = whole && self.send_and_take(signals);
        let end = signals.start.elapsed();
        if !whole {
            signals.failed.store(true, Ordering::SeqCst);
            return None;
        }
        Some(Ended { begin, end, tally: self.tally })
    }
}

/// All clients, each in a thread of its own.
fn run_clients(shared: &Arc<Shared>, load: Load) -> Vec<Option<Ended>> {
    let signals =
        Arc::new(Signals { entered: AtomicU32::new(0), failed: AtomicBool::new(false), start: Instant::now() });
    let root = Cred { uid: 0, gid: 0 };
    let begin = |node| {
        let (shared, signals) = (shared.clone(), signals.clone());
        thread::spawn(move || {
            let session = Session::connect(&shared, node, 40, root).ok()?;
            Client::new(session, load).run(&signals)
        })
    };
    let threads: Vec<JoinHandle<Option<Ended>>> = (1..load.nodes + 1).map(begin).collect();
    threads.into_iter().map(|thread| thread.join().unwrap()).collect()
}

fn ends_line(load: &Load, ends: &[Option<Ended>], differs: bool) -> String {
    let ended: Vec<&Ended> = ends.iter().flat_map(|end| end).collect();
    let begin = ended.iter().map(|end| end.begin).min().unwrap_or_default();
    let end = ended.iter().map(|end| end.end).max().unwrap_or_default();
    let order = ended.first().map(|end| end.tally.order);
    let agree = !differs && ended.len() == ends.len() && ended.iter().all(|end| Some(end.tally.order) == order);
    let micros = (end.as_micros() as u64).saturating_sub(begin.as_micros() as u64).max(1);
    let rate = u64::from(load.total()) * 1_000_000 / micros;
    let agree = if agree { "yes" } else { "NO" };
    let Load { nodes, messages, size, .. } = *load;
    let total = load.total();
    format!(
        "load nodes {nodes} messages {messages} size {size} ordered {total} agree {agree} \
         micros {micros} per_second {rate}\n"
    )
}

/// How often the token went round: by the last token that a node sent.
fn rounds_of(workers: &[Worker], nodes: u8) -> u64 {
    let hop_of = |worker: &Worker| worker.node.last.as_ref().map_or(0, |token| token.hop);
    workers.iter().map(hop_of).max().unwrap_or(0) / u64::from(nodes)
}

fn rounds_line(workers: &[Worker], load: &Load) -> String {
    let rounds = rounds_of(workers, load.nodes);
    let tenths = u64::from(load.total()) * 10 / rounds.max(1);
    format!("rounds {} messages_a_round {}.{}\n", rounds, tenths / 10, tenths % 10)
}

pub fn run_load(load: Load) {
    let places = load.total() + u32::from(load.nodes);
    let settings = Settings { ring: 1, nodes: load.nodes, places, hops: MOST_HOPS };
    let cluster = Cluster::start(settings, load.locked);
    let ends = run_clients(&cluster.shared, load);
    let differs = cluster.shared.board.as_ref().map_or(false, |board| board.differs.load(Ordering::SeqCst));
    print_all(&ends_line(&load, &ends, differs));
    print_all(&rounds_line(&cluster.stop(), &load));
}

/// The load that NODES MESSAGES SIZE ask for, and WINDOW and MANY where they are there, of a cluster by the proved one's steps
/// where it is `locked`.
pub fn read_load(words: &[String], locked: bool) -> Option<Load> {
    let number = |at: usize| words.get(at)?.parse::<u32>().ok();
    let nodes = number(0)?;
    let load = Load {
        nodes: nodes as u8,
        messages: number(1)?,
        size: (number(2)? as usize).min(MOST_MESSAGE),
        window: match words.get(3) {
            None => u32::MAX,
            Some(_) => Some(number(3)?).filter(|window| *window > 0).unwrap_or(u32::MAX),
        },
        many: match words.get(4) {
            None => 0,
            Some(_) => number(4)?,
        },
        locked,
    };
    let fits = nodes >= 1 && nodes <= u32::from(MOST_NODES) && load.messages <= MOST_PLACES / nodes - 1;
    if fits {
        Some(load)
    } else {
        None
    }
}
