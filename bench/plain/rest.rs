//! A running cluster at rest, and how long a call takes that wakes it.

use crate::cluster::Cluster;
use crate::limits::{MOST_HOPS, MOST_NODES};
use crate::node::Settings;
use crate::output::print_all;
use crate::session::Session;
use crate::values::{Cred, Op};
use crate::words::{read_node, read_u32};
use std::thread;
use std::time::{Duration, Instant};

/// How long a call takes to its verdict after a second's rest, at the last node; so many times.
pub fn run_rest(nodes: u8, rounds: u32) {
    let cluster = Cluster::start(Settings { ring: 1, nodes, places: 4_096, hops: MOST_HOPS }, false);
    let root = Cred { uid: 0, gid: 0 };
    if let Ok(mut session) = Session::connect(&cluster.shared, nodes, 40, root) {
        for _ in 0..rounds {
            thread::sleep(Duration::from_secs(1));
            let start = Instant::now();
            let admitted = session.submit(Op::Leave).is_ok();
            while admitted && session.take().is_none() {
                thread::yield_now();
            }
            print_all(&format!("{} {}\n", admitted, start.elapsed().as_micros()));
        }
    }
    cluster.stop();
}

/// NODES and ROUNDS.
pub fn read_rest(words: &[String]) -> Option<(u8, u32)> {
    match words {
        [nodes, rounds] => Some((read_node(MOST_NODES, nodes.as_bytes())?, read_u32(rounds.as_bytes())?)),
        _ => None,
    }
}
