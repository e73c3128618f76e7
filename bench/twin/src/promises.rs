//! What a run may break: sizes, arrival curves, service curves.
use crate::curve::*;
use crate::frac::*;
use crate::net::Net;
use crate::trace::Packet;

/// At a time a size (0) goes before an arrival (1); then the flow, the last packet and the first one, counted in the flow.
pub type Breach = (Fraction, u8, usize, usize, usize);

struct Sent {
    at: Vec<Fraction>,
    /// The bits before each packet, and after the last one.
    sums: Vec<i128>,
}

/// The first size or arrival that is broken.
pub fn first_breach(net: &Net, packets: &[Packet]) -> Option<Breach> {
    let mut sent: Vec<Sent> = net.flows.iter().map(|_| Sent { at: Vec::new(), sums: vec![0] }).collect();
    let mut found: Option<Breach> = None;
    let mut note = |breach: Breach| found = Some(found.map_or(breach, |first: Breach| first.min(breach)));
    for p in packets {
        let own = &mut sent[p.flow as usize];
        if p.bits > net.flows[p.flow as usize].packet as i128 {
            note((p.at, 0, p.flow as usize, own.at.len(), 0));
        }
        own.at.push(p.at);
        own.sums.push(own.sums[own.sums.len() - 1] + p.bits);
    }
    for (i, own) in sent.iter().enumerate() {
        if let Some((first, last)) = broken(&net.flows[i].arrival, own) {
            note((own.at[last], 1, i, last, first));
        }
    }
    found
}

/// The least last packet of a window in which too much comes, and the least first one of such a window.
fn broken(curve: &Curve, sent: &Sent) -> Option<(usize, usize)> {
    let last = match (&curve.ps[..], curve.tail) {
        ([p], Tail::Aff) if p.at == p.k => line_broken(p.k, p.r, sent)?,
        ([p], Tail::Per(d, c)) if p.r.zero() && p.at == p.k && whole(c) => stair_broken(p.k, ZERO, d, c, sent)?,
        ([p, q], Tail::Per(d, c)) if curve.rank.zero() && is_stair(p, q, c) => {
            stair_broken(p.k, d.sub(q.x), d, c, sent)?
        }
        _ => (0..sent.at.len()).find(|&last| first_of(curve, sent, last).is_some())?,
    };
    Some((first_of(curve, sent, last)?, last))
}

fn whole(c: Fraction) -> bool {
    c.d == 1 && c.n > 0
}

fn is_stair(p: &Piece, q: &Piece, c: Fraction) -> bool {
    whole(c) && p.r.zero() && q.r.zero() && p.at == p.k && q.at == q.k && q.k == p.k.add(c)
}

fn first_of(curve: &Curve, sent: &Sent, last: usize) -> Option<usize> {
    let all = sent.sums[last + 1];
    (0..=last).find(|&first| Fraction::int(all - sent.sums[first]) > curve.value(sent.at[last].sub(sent.at[first])))
}

fn line_broken(k: Fraction, r: Fraction, sent: &Sent) -> Option<usize> {
    let mut least: Option<Fraction> = None;
    (0..sent.at.len()).find(|&i| {
        let back = r.mul(sent.at[i]);
        let before = Fraction::int(sent.sums[i]).sub(back);
        let low = least.map_or(before, |low| low.min(before));
        least = Some(low);
        Fraction::int(sent.sums[i + 1]).sub(back) > low.add(k)
    })
}

/// Of the curve first + step floor((t + ahead) / period). A window of packets brings too much exactly where it has more whole steps
/// than periods have ended: of the window's last sum a step + b and of its first one p step + q these are a - p, and one more where q < b.
fn stair_broken(first: Fraction, ahead: Fraction, period: Fraction, step: Fraction, sent: &Sent) -> Option<usize> {
    if first.d != 1 {
        return None;
    }
    let split = |sum: i128| (sum.div_euclid(step.n), sum.rem_euclid(step.n));
    let mut rests: Vec<i128> = sent.sums.iter().map(|&sum| split(sum).1).collect();
    rests.sort_unstable();
    rests.dedup();
    let mut least = Least::new(rests.len());
    (0..sent.at.len()).find(|&i| {
        let (p, q) = split(sent.sums[i]);
        let rank = rests.partition_point(|&rest| rest < q);
        least.put(rank, Fraction::int(p).mul(period).sub(sent.at[i]));
        let (a, b) = split(sent.sums[i + 1] - first.n);
        let over = Fraction::int(a).mul(period).sub(sent.at[i]).sub(ahead);
        let is_above = |below: Option<Fraction>, over: Fraction| below.is_some_and(|below| below < over);
        is_above(least.all, over) || is_above(least.before(rests.partition_point(|&rest| rest < b)), over.add(period))
    })
}

/// The least of the values at ranks below one, as a tree over the ranks.
struct Least {
    tree: Vec<Option<Fraction>>,
    all: Option<Fraction>,
}

fn lesser(a: Option<Fraction>, b: Fraction) -> Option<Fraction> {
    Some(a.map_or(b, |a| a.min(b)))
}

impl Least {
    fn new(ranks: usize) -> Least {
        Least { tree: vec![None; ranks + 1], all: None }
    }
    fn put(&mut self, rank: usize, value: Fraction) {
        self.all = lesser(self.all, value);
        let mut i = rank + 1;
        while i < self.tree.len() {
            self.tree[i] = lesser(self.tree[i], value);
            i += i & i.wrapping_neg();
        }
    }
    fn before(&self, rank: usize) -> Option<Fraction> {
        let (mut found, mut i) = (None, rank);
        while i > 0 {
            if let Some(value) = self.tree[i] {
                found = lesser(found, value);
            }
            i &= i - 1;
        }
        found
    }
}

/// The turns of the work of a stretch in which a server has work all the time: times, and bits up to them.
#[derive(Default)]
pub struct Stretch {
    turns: Vec<(Fraction, Fraction)>,
}

impl Stretch {
    fn to(&mut self, at: Fraction, bits: Fraction) {
        if let [.., (a, v), (b, w)] = self.turns[..] {
            if b == at {
                return;
            }
            if w.sub(v).mul(at.sub(b)) == bits.sub(w).mul(b.sub(a)) {
                self.turns.pop();
            }
        }
        self.turns.push((at, bits));
    }
}

/// Makes the stretches of a server, from its steps in the order of time.
pub struct Watch {
    count: usize,
    now: Stretch,
    done: Fraction,
    before: Vec<Stretch>,
}

impl Default for Watch {
    fn default() -> Watch {
        Watch { count: 0, now: Stretch::default(), done: ZERO, before: Vec::new() }
    }
}

impl Watch {
    pub fn arrive(&mut self, at: Fraction) {
        if self.count == 0 {
            self.now = Stretch { turns: vec![(at, ZERO)] };
            self.done = ZERO;
        }
        self.count += 1;
    }
    pub fn work(&mut self, from: Fraction, to: Fraction, bits: Fraction) {
        if self.now.turns.last().is_some_and(|turn| turn.0 < from) {
            self.now.to(from, self.done);
        }
        self.done = self.done.add(bits);
        self.now.to(to, self.done);
    }
    pub fn leave(&mut self, at: Fraction) {
        self.count -= 1;
        if self.count == 0 {
            self.close(at);
        }
    }
    fn close(&mut self, at: Fraction) {
        if self.now.turns.last().is_some_and(|turn| turn.0 < at) {
            self.now.to(at, self.done);
        }
        self.before.push(std::mem::take(&mut self.now));
    }
    pub fn done(mut self, end: Fraction) -> Vec<Stretch> {
        if self.count > 0 {
            self.close(end);
        }
        self.before
    }
}

/// Whether a stretch has in each window at least what the service curve has at its length.
pub fn keeps(stretch: &Stretch, service: &Curve) -> bool {
    let turns = &stretch.turns;
    let length = turns[turns.len() - 1].0.sub(turns[0].0);
    if length.zero() {
        return true;
    }
    let pieces = service.between(ZERO, length);
    (0..pieces.len()).all(|i| {
        let end = if i + 1 < pieces.len() { pieces[i + 1].x } else { length };
        turns_keep(turns, &pieces[i], end) && moved_keep(turns, pieces[i].x, pieces[i].line(pieces[i].x))
    })
}

/// Of the windows from a turn to a turn that are as long as a piece says.
fn turns_keep(turns: &[(Fraction, Fraction)], piece: &Piece, end: Fraction) -> bool {
    let mut open: std::collections::VecDeque<(Fraction, Fraction)> = std::collections::VecDeque::new();
    let mut next = 0;
    for &(t, w) in turns {
        let (from, to) = (t.sub(end), t.sub(piece.x));
        while next < turns.len() && turns[next].0 <= to {
            let (s, v) = turns[next];
            let above = v.sub(piece.r.mul(s));
            while open.back().is_some_and(|last| last.1 <= above) {
                open.pop_back();
            }
            open.push_back((s, above));
            next += 1;
        }
        while open.front().is_some_and(|first| first.0 < from) {
            open.pop_front();
        }
        if open.front().is_some_and(|first| w.sub(piece.r.mul(t)) < first.1.add(piece.k)) {
            return false;
        }
    }
    true
}

/// Of the windows that are exactly so long and begin or end at a turn.
fn moved_keep(turns: &[(Fraction, Fraction)], length: Fraction, least: Fraction) -> bool {
    let (mut ahead, mut behind) = (0, 0);
    turns.iter().all(|&(t, w)| {
        let after = work_at(turns, &mut ahead, t.add(length));
        let before = work_at(turns, &mut behind, t.sub(length));
        after.is_none_or(|after| after.sub(w) >= least) && before.is_none_or(|before| w.sub(before) >= least)
    })
}

/// The work up to a time, which is not before the last one that was asked for.
fn work_at(turns: &[(Fraction, Fraction)], place: &mut usize, t: Fraction) -> Option<Fraction> {
    if t < turns[0].0 {
        return None;
    }
    while *place < turns.len() && turns[*place].0 < t {
        *place += 1;
    }
    let &(b, w) = turns.get(*place)?;
    if b == t {
        return Some(w);
    }
    let (a, v) = turns[*place - 1];
    Some(v.add(w.sub(v).mul(t.sub(a)).div(b.sub(a))))
}
