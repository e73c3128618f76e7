//! Whether a recorded run is lawful.
use crate::frac::*;
use crate::net::Net;
use crate::promises::{Stretch, Watch};
use crate::queues::Queues;
use crate::simulate::Seen;
use crate::trace::{Packet, Step};

/// Where a packet is: how many hops it has left, whether it is at the next one, and when it left the last.
struct Way {
    hop: usize,
    is_there: bool,
    left: Fraction,
}

struct Site<'a> {
    queues: Queues<'a>,
    watch: Watch,
    last: Fraction,
    /// The end of the last work, and of the packet under way its queue, number and bits that were done.
    until: Fraction,
    under_way: Option<(u32, u32, Fraction)>,
}

pub struct Checked<'a> {
    net: &'a Net,
    end: Fraction,
    pub packets: Vec<Packet>,
    ways: Vec<Way>,
    sites: Vec<Site<'a>>,
}

/// A law that is broken, by its number.
type Law = Result<(), u8>;

fn holds(is_kept: bool, law: u8) -> Law {
    if is_kept {
        Ok(())
    } else {
        Err(law)
    }
}

impl<'a> Checked<'a> {
    pub fn new(net: &'a Net, end: Fraction) -> Checked<'a> {
        let site = |server: &'a crate::net::Server| Site {
            queues: Queues::new(server),
            watch: Watch::default(),
            last: ZERO,
            until: ZERO,
            under_way: None,
        };
        Checked { net, end, packets: Vec::new(), ways: Vec::new(), sites: net.servers.iter().map(site).collect() }
    }
    fn on_time(&mut self, server: u32, at: Fraction, to: Fraction) -> Law {
        let site = &mut self.sites[server as usize];
        holds(site.last <= at && at <= self.end && to <= self.end, 1)?;
        site.last = at;
        Ok(())
    }
    /// The hop that a packet takes next.
    fn hop(&self, packet: u32) -> Option<(u32, u32)> {
        let flow = self.packets[packet as usize].flow;
        self.net.flows[flow as usize].path.get(self.ways[packet as usize].hop).copied()
    }
    fn is_at(&self, packet: u32, server: u32) -> bool {
        self.ways[packet as usize].is_there && self.hop(packet).is_some_and(|hop| hop.0 == server)
    }
    /// Whether a packet was worked off at a server before, so that any work there passes its bits.
    fn has_left(&self, packet: u32, server: u32) -> bool {
        let flow = self.packets[packet as usize].flow;
        let hop = self.ways[packet as usize].hop;
        self.net.flows[flow as usize].path[..hop].iter().any(|before| before.0 == server)
    }
    fn put(&mut self, at: Fraction, packet: u32) {
        if let Some((server, queue)) = self.hop(packet) {
            self.ways[packet as usize].is_there = true;
            let site = &mut self.sites[server as usize];
            site.watch.arrive(at);
            site.queues.arrive(at, queue, packet, self.packets[packet as usize].bits);
        }
    }
    pub fn step(&mut self, step: &Step) -> Law {
        match *step {
            Step::Enter { at, flow, bits } => {
                self.on_time(self.net.flows[flow as usize].path[0].0, at, at)?;
                self.packets.push(Packet { flow, at, bits });
                self.ways.push(Way { hop: 0, is_there: false, left: ZERO });
                self.put(at, self.packets.len() as u32 - 1);
                Ok(())
            }
            Step::Reach { at, server, packet } => {
                self.on_time(server, at, at)?;
                holds((packet as usize) < self.packets.len(), 2)?;
                holds(self.may_reach(at, server, packet), 3)?;
                self.put(at, packet);
                Ok(())
            }
            Step::Work { server, packet, from, to, bits } => self.work(server, packet, from, to, bits),
            Step::Leave { at, server, packet } => self.leave(at, server, packet),
            Step::Visit { at, server, queue } => {
                self.on_time(server, at, at)?;
                let site = &mut self.sites[server as usize];
                let is_due =
                    site.queues.is_in_rounds() && site.under_way.is_none() && site.queues.turn() == Some(queue);
                holds(is_due, 7)?;
                site.queues.visit();
                Ok(())
            }
        }
    }
    fn may_reach(&self, at: Fraction, server: u32, packet: u32) -> bool {
        let way = &self.ways[packet as usize];
        if way.is_there || way.hop == 0 || self.hop(packet).is_none_or(|hop| hop.0 != server) {
            return false;
        }
        let before = self.net.flows[self.packets[packet as usize].flow as usize].path[way.hop - 1].0;
        way.left.add(self.net.servers[before as usize].link) == at
    }
    fn work(&mut self, server: u32, packet: u32, from: Fraction, to: Fraction, bits: Fraction) -> Law {
        self.on_time(server, from, to)?;
        holds((packet as usize) < self.packets.len(), 2)?;
        let is_there = self.is_at(packet, server);
        let whole = Fraction::int(self.packets[packet as usize].bits);
        let has_left = self.has_left(packet, server);
        let site = &mut self.sites[server as usize];
        let done = match site.under_way {
            Some((_, other, done)) => {
                holds(other == packet, 4)?;
                done
            }
            None if has_left => whole,
            None => ZERO,
        };
        holds(from < to && bits.n > 0 && site.until <= from && done.add(bits) <= whole, 4)?;
        let queue = match site.under_way {
            Some((queue, ..)) => queue,
            None => {
                let next = site.queues.next().filter(|next| is_there && next.1 == packet);
                let (queue, _, length) = next.ok_or(5)?;
                site.queues.start(queue, length);
                queue
            }
        };
        holds(self.net.version == 1 || bits <= self.net.servers[server as usize].rate.mul(to.sub(from)), 8)?;
        site.until = to;
        site.under_way = Some((queue, packet, done.add(bits)));
        site.watch.work(from, to, bits);
        Ok(())
    }
    fn leave(&mut self, at: Fraction, server: u32, packet: u32) -> Law {
        self.on_time(server, at, at)?;
        holds((packet as usize) < self.packets.len(), 2)?;
        let whole = Fraction::int(self.packets[packet as usize].bits);
        let site = &mut self.sites[server as usize];
        let (queue, _, done) = site.under_way.filter(|under_way| under_way.1 == packet).ok_or(6)?;
        holds(done == whole && site.until == at, 6)?;
        site.under_way = None;
        site.queues.leave(at, queue);
        site.watch.leave(at);
        let way = &mut self.ways[packet as usize];
        (way.hop, way.is_there, way.left) = (way.hop + 1, false, at);
        Ok(())
    }
    /// The law of the end.
    pub fn ended(&self) -> Law {
        let has_come = |(packet, way): (usize, &Way)| {
            let flow = &self.net.flows[self.packets[packet].flow as usize];
            way.is_there || way.hop == flow.path.len() || self.reached(packet) > self.end
        };
        let has_left = |site: &Site| {
            site.under_way.is_none_or(|(_, packet, done)| done.n < self.packets[packet as usize].bits || done.d != 1)
        };
        holds(self.ways.iter().enumerate().all(has_come) && self.sites.iter().all(has_left), 9)
    }
    /// When a packet that left a hop is at the end of its link.
    fn reached(&self, packet: usize) -> Fraction {
        let way = &self.ways[packet];
        let before = self.net.flows[self.packets[packet].flow as usize].path[way.hop - 1].0;
        way.left.add(self.net.servers[before as usize].link)
    }
    pub fn seen(&mut self) -> Seen {
        let mut worst = vec![ZERO; self.net.flows.len()];
        for (i, p) in self.packets.iter().enumerate() {
            let is_out = self.ways[i].hop == self.net.flows[p.flow as usize].path.len();
            let until = if is_out { self.reached(i) } else { self.end };
            worst[p.flow as usize] = worst[p.flow as usize].max(until.sub(p.at));
        }
        let peaks = self
            .sites
            .iter()
            .zip(&self.net.servers)
            .map(|(site, s)| (0..s.nq).map(|q| site.queues.peak(q)).collect())
            .collect();
        let end = self.end;
        let stretches: Vec<Vec<Stretch>> =
            self.sites.iter_mut().map(|site| std::mem::take(&mut site.watch).done(end)).collect();
        Seen { packets: self.packets.len(), end, worst, peaks, stretches }
    }
}
