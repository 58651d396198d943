//! A running cluster: a thread for each node, and links between them.

use crate::board::Board;
use crate::door::{Shared, DEEP};
use crate::node::{Node, Settings};
use crate::worker::{Outgoing, Worker};
use std::sync::atomic::Ordering;
use std::sync::mpsc::sync_channel;
use std::sync::Arc;
use std::thread::{self, JoinHandle};

/// How many frames a link has room for.
const LINK_ROOM: usize = 64;

/// The running nodes.
pub struct Cluster {
    pub shared: Arc<Shared>,
    threads: Vec<JoinHandle<Worker>>,
}

/// The nodes to which a node's links go, the next one first.
fn targets(nodes: u8, from: u8) -> Vec<u8> {
    if nodes == 1 {
        return vec![1];
    }
    (1..nodes).map(|step| (from - 1 + step) % nodes + 1).collect()
}

/// Lays a link of each way, and puts the first token on its way.
fn lay_links(workers: &mut Vec<Worker>, nodes: u8) {
    for from in 1..nodes + 1 {
        for to in targets(nodes, from) {
            let (sender, receiver) = sync_channel(LINK_ROOM);
            workers[usize::from(from) - 1].outgoing.push(Outgoing { to, link: sender });
            workers[usize::from(to) - 1].incoming.push(receiver);
        }
    }
    if let Some(last) = workers.last_mut() {
        last.send_again();
    }
}

impl Cluster {
    /// A running cluster, which goes by the proved one's steps where it is `locked`.
    pub fn start(settings: Settings, locked: bool) -> Cluster {
        let nodes = settings.nodes;
        let board = if locked { Some(Board::new(settings.places)) } else { None };
        let shared = Arc::new(Shared::new(nodes, board));
        let worker = |id| Worker::new(shared.clone(), Node::new(settings, id));
        let mut workers: Vec<Worker> = (1..nodes + 1).map(worker).collect();
        lay_links(&mut workers, nodes);
        let threads = workers.into_iter().map(|worker| thread::spawn(move || worker.run())).collect();
        Cluster { shared, threads }
    }

    /// Halts the nodes, and gives them with what is left in their links.
    pub fn stop(self) -> Vec<Worker> {
        self.shared.halted.store(true, Ordering::SeqCst);
        self.shared.ring_all(DEEP);
        self.threads.into_iter().map(|thread| thread.join().unwrap()).collect()
    }
}
