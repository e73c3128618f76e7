//! The run of a trace, event by event.
use crate::frac::*;
use crate::net::{Gate, Net};
use crate::promises::{Stretch, Watch};
use crate::queues::Queues;
use crate::trace::{Packet, Stall};
use std::cmp::Reverse;
use std::collections::BinaryHeap;

/// When a server may work: the gate's slots, but for its stalls.
struct Opening {
    gate: Option<Gate>,
    stalls: Vec<(Fraction, Fraction)>,
}

impl Opening {
    /// The end of the stall that a time is in.
    fn stalled(&self, t: Fraction) -> Option<Fraction> {
        let i = self.stalls.partition_point(|stall| stall.0 <= t);
        (i > 0 && self.stalls[i - 1].1 > t).then(|| self.stalls[i - 1].1)
    }
    /// The first time from t on at which it is open.
    fn open_from(&self, mut t: Fraction) -> Fraction {
        loop {
            let before = t;
            if let Some(end) = self.stalled(t) {
                t = end;
            }
            if let Some(gate) = self.gate {
                let begin = Fraction::int(t.floor_div(gate.cycle)).mul(gate.cycle);
                if t.sub(begin) >= gate.slot {
                    t = begin.add(gate.cycle);
                }
            }
            if t == before {
                return t;
            }
        }
    }
    /// From a time at which it is open, the next one at which it is not.
    fn open_until(&self, t: Fraction) -> Fraction {
        let mut end = match self.gate {
            Some(gate) if gate.slot < gate.cycle => {
                Fraction::int(t.floor_div(gate.cycle)).mul(gate.cycle).add(gate.slot)
            }
            _ => INF,
        };
        if let Some(stall) = self.stalls.get(self.stalls.partition_point(|stall| stall.0 <= t)) {
            end = end.min(stall.0);
        }
        end
    }
}

fn joined(mut stalls: Vec<(Fraction, Fraction)>) -> Vec<(Fraction, Fraction)> {
    stalls.sort();
    let mut out: Vec<(Fraction, Fraction)> = Vec::with_capacity(stalls.len());
    for stall in stalls {
        match out.last_mut() {
            Some(last) if last.1 >= stall.0 => last.1 = last.1.max(stall.1),
            _ => out.push(stall),
        }
    }
    out
}

struct Site<'a> {
    queues: Queues<'a>,
    opening: Opening,
    rate: Fraction,
    under_way: Option<(u32, u32)>,
    is_asked: bool,
    watch: Option<Watch>,
}

/// What a run shows: its end, of each flow the largest delay, of each server's queues the peaks.
pub struct Seen {
    pub packets: usize,
    pub end: Fraction,
    pub worst: Vec<Fraction>,
    pub peaks: Vec<Vec<i128>>,
    pub stretches: Vec<Vec<Stretch>>,
}

const LEAVE: u8 = 0;
const REACH: u8 = 1;
const START: u8 = 3;

type Event = Reverse<(Fraction, u8, u32, u32)>;

struct Run<'a> {
    net: &'a Net,
    sites: Vec<Site<'a>>,
    packets: &'a [Packet],
    hops: Vec<u8>,
    events: BinaryHeap<Event>,
    worst: Vec<Fraction>,
    end: Fraction,
}

impl Run<'_> {
    fn ask(&mut self, at: Fraction, server: u32) {
        let site = &mut self.sites[server as usize];
        if site.under_way.is_none() && !site.is_asked && !site.queues.is_empty() {
            site.is_asked = true;
            self.events.push(Reverse((site.opening.open_from(at), START, server, 0)));
        }
    }
    fn arrive(&mut self, at: Fraction, packet: u32) {
        let p = &self.packets[packet as usize];
        let (server, queue) = self.net.flows[p.flow as usize].path[self.hops[packet as usize] as usize];
        let site = &mut self.sites[server as usize];
        if let Some(watch) = &mut site.watch {
            watch.arrive(at);
        }
        site.queues.arrive(at, queue, packet, p.bits);
        self.ask(at, server);
    }
    fn leave(&mut self, at: Fraction, server: u32) {
        let site = &mut self.sites[server as usize];
        let Some((queue, packet)) = site.under_way.take() else { return };
        site.queues.leave(at, queue);
        if let Some(watch) = &mut site.watch {
            watch.leave(at);
        }
        let p = &self.packets[packet as usize];
        let flow = &self.net.flows[p.flow as usize];
        let reached = at.add(self.net.servers[server as usize].link);
        let hop = &mut self.hops[packet as usize];
        *hop += 1;
        if (*hop as usize) < flow.path.len() {
            self.events.push(Reverse((reached, REACH, flow.path[*hop as usize].0, packet)));
        } else {
            let worst = &mut self.worst[p.flow as usize];
            *worst = (*worst).max(reached.sub(p.at));
            self.end = self.end.max(at);
        }
        self.ask(at, server);
    }
    fn start(&mut self, at: Fraction, server: u32) {
        let site = &mut self.sites[server as usize];
        site.is_asked = false;
        while site.queues.turn().is_some() {
            site.queues.visit();
        }
        let Some((queue, packet, bits)) = site.queues.next() else { return };
        site.queues.start(queue, bits);
        site.under_way = Some((queue, packet));
        let mut need = Fraction::int(bits).div(site.rate);
        let mut t = at;
        loop {
            let until = site.opening.open_until(t);
            let there = if until.inf() { need } else { need.min(until.sub(t)) };
            if let Some(watch) = &mut site.watch {
                watch.work(t, t.add(there), there.mul(site.rate));
            }
            t = t.add(there);
            if there == need {
                break;
            }
            need = need.sub(there);
            t = site.opening.open_from(t);
        }
        self.events.push(Reverse((t, LEAVE, server, 0)));
    }
}

fn sites<'a>(net: &'a Net, stalls: &[Stall]) -> Vec<Site<'a>> {
    let own = |i: usize| stalls.iter().filter(|s| s.server as usize == i).map(|s| (s.from, s.to)).collect();
    (0..net.servers.len())
        .map(|i| {
            let server = &net.servers[i];
            let stalls = joined(own(i));
            let is_watched = server.is_listed || !stalls.is_empty();
            Site {
                queues: Queues::new(server),
                opening: Opening { gate: server.gate, stalls },
                rate: server.rate,
                under_way: None,
                is_asked: false,
                watch: is_watched.then(Watch::default),
            }
        })
        .collect()
}

pub fn simulate(net: &Net, packets: &[Packet], stalls: &[Stall]) -> Seen {
    let mut run = Run {
        net,
        sites: sites(net, stalls),
        packets,
        hops: vec![0; packets.len()],
        events: BinaryHeap::new(),
        worst: vec![ZERO; net.flows.len()],
        end: ZERO,
    };
    let mut entered = 0;
    loop {
        // leaves and arrivals over links go before what enters at the same time, and this before starts
        let enters = packets.get(entered).map(|p| p.at);
        let is_event = match (run.events.peek(), enters) {
            (None, None) => break,
            (None, _) => false,
            (_, None) => true,
            (Some(Reverse(event)), Some(at)) => event.0 < at || event.0 == at && event.1 < START,
        };
        if !is_event {
            run.arrive(packets[entered].at, entered as u32);
            entered += 1;
            continue;
        }
        let Some(Reverse((at, kind, server, packet))) = run.events.pop() else { break };
        match kind {
            LEAVE => run.leave(at, server),
            REACH => run.arrive(at, packet),
            _ => run.start(at, server),
        }
    }
    let peaks =
        run.sites.iter().zip(&net.servers).map(|(site, s)| (0..s.nq).map(|q| site.queues.peak(q)).collect()).collect();
    let stretches =
        run.sites.iter_mut().map(|site| site.watch.take().map_or(Vec::new(), |watch| watch.done(run.end))).collect();
    Seen { packets: packets.len(), end: run.end, worst: run.worst, peaks, stretches }
}
