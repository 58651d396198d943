//! A plain program to measure beside: the ring, the groups and their rules once more, in plain Rust with its standard
//! library alone, written for speed. It proves nothing, and no client learns here whether two nodes agree. What it does
//! is what the proved nodes do: tokens and bursts, frames spelled out and read, bounded links, a judged record of each
//! entry at each node, and events for each session.
//!
//! Where it goes its own way for speed: a session's calls wait, and its events are put when they are delivered, behind
//! locks of their own and not the node's; short frames and messages are copied, long ones shared; the members of a
//! group are one list that its records share until they change; names and messages of few bytes stand in their entries;
//! a script is gone through twice in place of keeping what it says. It leaves out frames of version 1, gates, and in the
//! running cluster listings, ends of sessions and all but root in its accept list. Want of memory ends it.
//!
//! With `locked` a running cluster goes by the proved one's steps: each call, each lot of events that is taken, the
//! frames of a turn and its deliveries are one section of the node's lock, and each record is settled on a board.
//! Without it there is no board, and sessions meet the node at locks of their own. Both deliver at the end of each turn,
//! where the proved one hears several in a row first.
//!
//! The ring is in `frames`, `reading`, `policy` and `node`; a running cluster in `door`, `session`, `worker` and
//! `cluster`, with `load` and `rest` over it; the commands on scripts in `step`, `judge` and `accept`.
//!
//! Build: rustc -O -C target-cpu=x86-64 bench/plain/plain.rs -o /tmp/plain
//!
//! Usage: plain NODES MESSAGES SIZE             a cluster at full load, as bench/load runs it with --beside
//!        plain full NODES MESSAGES SIZE WINDOW MANY the same, with at most WINDOW messages of a client in flight (0: any),
//!                                              which submits up to MANY calls in one go (0: one by one)
//!        plain locked NODES MESSAGES SIZE WINDOW MANY the same by the proved cluster's steps, with its lock and its board
//!        plain rest NODES ROUNDS               a cluster that rests for a second, and then answers a call, so often
//!        plain step [--ring R] [--nodes N] [--places P] [--hops H] [uid:N | gid:N]...
//!        plain judge
//!        plain accept                          what `cpgring` prints of the same script, for bench/all --beside

mod accept;
mod accept_list;
mod board;
mod bytes;
mod cluster;
mod door;
mod frames;
mod host;
mod judge;
mod limits;
mod load;
mod node;
mod output;
mod policy;
mod print;
mod reading;
mod rest;
mod script;
mod session;
mod step;
mod values;
mod words;
mod worker;

use accept::run_accept;
use judge::run_judge;
use load::{read_load, run_load};
use rest::{read_rest, run_rest};
use script::Fault;
use std::env;
use std::process::exit;
use step::{read_step, run_step};

fn end_with(result: Result<(), Fault>) {
    match result {
        Ok(()) => return,
        Err(Fault::Read) => eprintln!("cpgring: 42 Read"),
        Err(Fault::BadCommand(line)) => eprintln!("cpgring: 41 BadCommand {}", line),
        Err(Fault::Write) => eprintln!("cpgring: 43 Write"),
        Err(Fault::Part(part, name, None)) => eprintln!("cpgring: part {}: {}", part, name),
        Err(Fault::Part(part, name, Some(line))) => eprintln!("cpgring: part {}: {} {}", part, name, line),
    }
    exit(1);
}

fn refuse_words() {
    eprintln!("plain: not such words");
    exit(2);
}

fn load_or_refuse(words: &[String], locked: bool) {
    match read_load(words, locked) {
        Some(load) => run_load(load),
        None => refuse_words(),
    }
}

fn main() {
    let words: Vec<String> = env::args().skip(1).collect();
    match words.first().map(|word| word.as_str()) {
        Some("judge") if words.len() == 1 => end_with(run_judge()),
        Some("accept") if words.len() == 1 => end_with(run_accept()),
        Some("step") => match read_step(&words[1..]) {
            Some((settings, list)) => end_with(run_step(settings, list)),
            None => refuse_words(),
        },
        Some("rest") => match read_rest(&words[1..]) {
            Some((nodes, rounds)) => run_rest(nodes, rounds),
            None => refuse_words(),
        },
        Some("full") => load_or_refuse(&words[1..], false),
        Some("locked") => load_or_refuse(&words[1..], true),
        _ => load_or_refuse(&words, false),
    }
}
