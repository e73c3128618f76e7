//! The queues of a server: which packet it takes next.
use crate::frac::*;
use crate::net::{Disc, Server};
use std::collections::VecDeque;

/// What a queue holds; what leaves at a time still counts at that time.
#[derive(Clone)]
struct Held {
    now: i128,
    left: i128,
    left_at: Fraction,
    peak: i128,
}

pub struct Queues<'a> {
    disc: &'a Disc,
    queues: Vec<VecDeque<(u32, i128)>>,
    held: Vec<Held>,
    round: VecDeque<u32>,
    deficit: Vec<i128>,
    is_visited: bool,
    count: usize,
}

impl<'a> Queues<'a> {
    pub fn new(server: &'a Server) -> Queues<'a> {
        Queues {
            disc: &server.disc,
            queues: vec![VecDeque::new(); server.nq],
            held: vec![Held { now: 0, left: 0, left_at: INF, peak: 0 }; server.nq],
            round: VecDeque::new(),
            deficit: vec![0; server.nq],
            is_visited: false,
            count: 0,
        }
    }
    pub fn is_empty(&self) -> bool {
        self.count == 0
    }
    pub fn peak(&self, queue: usize) -> i128 {
        self.held[queue].peak
    }
    pub fn arrive(&mut self, at: Fraction, queue: u32, packet: u32, bits: i128) {
        let q = queue as usize;
        if matches!(self.disc, Disc::Drr(_)) && self.queues[q].is_empty() {
            self.round.push_back(queue);
        }
        self.queues[q].push_back((packet, bits));
        self.count += 1;
        let held = &mut self.held[q];
        held.now += bits;
        held.peak = held.peak.max(held.now + if held.left_at == at { held.left } else { 0 });
    }
    /// The first queue of the round, where a visit may begin.
    pub fn turn(&self) -> Option<u32> {
        if self.is_visited {
            return None;
        }
        self.round.front().copied()
    }
    pub fn is_in_rounds(&self) -> bool {
        matches!(self.disc, Disc::Drr(_))
    }
    pub fn visit(&mut self) {
        if let (Disc::Drr(quanta), Some(&queue)) = (self.disc, self.round.front()) {
            self.deficit[queue as usize] += quanta[queue as usize] as i128;
            self.is_visited = true;
            self.pass_where_short();
        }
    }
    fn pass_where_short(&mut self) {
        let queue = self.round[0];
        if self.queues[queue as usize][0].1 > self.deficit[queue as usize] {
            self.is_visited = false;
            self.round.rotate_left(1);
        }
    }
    /// The packet that may start now, without a further visit.
    pub fn next(&self) -> Option<(u32, u32, i128)> {
        let queue = match self.disc {
            Disc::Fifo => 0,
            Disc::Prio => self.queues.iter().position(|queue| !queue.is_empty())?,
            Disc::Drr(_) if self.is_visited => *self.round.front()? as usize,
            Disc::Drr(_) => return None,
        };
        self.queues[queue].front().map(|&(packet, bits)| (queue as u32, packet, bits))
    }
    pub fn start(&mut self, queue: u32, bits: i128) {
        self.deficit[queue as usize] -= bits;
    }
    /// The first packet of the queue leaves.
    pub fn leave(&mut self, at: Fraction, queue: u32) {
        let q = queue as usize;
        let Some((_, bits)) = self.queues[q].pop_front() else { return };
        self.count -= 1;
        let held = &mut self.held[q];
        if held.left_at != at {
            (held.left, held.left_at) = (0, at);
        }
        held.left += bits;
        held.now -= bits;
        if self.is_in_rounds() {
            if self.queues[q].is_empty() {
                self.round.pop_front();
                self.deficit[q] = 0;
                self.is_visited = false;
            } else {
                self.pass_where_short();
            }
        }
    }
}
