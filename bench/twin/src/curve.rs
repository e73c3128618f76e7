//! Ultimately pseudo-periodic curves in normal form.
use crate::frac::*;
use std::borrow::Cow;

/// Value `at` at x, then k + r t; r = INF is infinity.
#[derive(Clone, Copy, PartialEq, Eq, Debug)]
pub struct Piece {
    pub x: Fraction,
    pub at: Fraction,
    pub k: Fraction,
    pub r: Fraction,
}

impl Piece {
    #[inline(always)]
    pub fn new(x: Fraction, at: Fraction, k: Fraction, r: Fraction) -> Piece {
        Piece { x, at, k, r }
    }
    pub fn off(x: Fraction, at: Fraction) -> Piece {
        Piece { x, at, k: INF, r: INF }
    }
    #[inline(always)]
    pub fn line(&self, t: Fraction) -> Fraction {
        line(self.k, self.r, t)
    }
    /// Later by t and higher by v.
    #[inline(always)]
    pub fn moved(&self, t: Fraction, v: Fraction) -> Piece {
        Piece {
            x: self.x.add(t),
            at: if self.at.inf() { INF } else { self.at.add(v) },
            k: if self.r.inf() { INF } else { self.k.add(v.sub(self.r.mul(t))) },
            r: self.r,
        }
    }
}

#[inline(always)]
pub fn line(k: Fraction, r: Fraction, t: Fraction) -> Fraction {
    if r.zero() {
        return k;
    }
    if r.inf() {
        return INF;
    }
    k.add(r.mul(t))
}

#[derive(Clone, Copy, PartialEq, Eq, Debug)]
pub enum Tail {
    Per(Fraction, Fraction),
    Aff,
    Inf,
}

#[derive(Clone, Debug, PartialEq, Eq)]
pub struct Curve {
    pub ps: Vec<Piece>,
    pub rank: Fraction,
    pub tail: Tail,
}

/// Append, where it can't be one with the piece before.
#[inline(always)]
pub fn emit(out: &mut Vec<Piece>, x: Fraction, at: Fraction, k: Fraction, r: Fraction) {
    if let Some(l) = out.last() {
        if l.r == r && (r.inf() && at.inf() || !r.inf() && l.k == k && !at.inf() && at == line(k, r, x)) {
            return;
        }
    }
    out.push(Piece { x, at, k, r });
}

fn merged(ps: &mut Vec<Piece>) {
    let mut n = 1;
    for i in 1..ps.len() {
        let q = ps[i];
        let l = ps[n - 1];
        if l.r == q.r && (q.r.inf() && q.at.inf() || !q.r.inf() && l.k == q.k && !q.at.inf() && q.at == q.line(q.x)) {
            continue;
        }
        ps[n] = q;
        n += 1;
    }
    ps.truncate(n);
}

pub fn simple(mut ps: Vec<Piece>) -> Curve {
    merged(&mut ps);
    let l = ps[ps.len() - 1];
    Curve { rank: l.x, tail: if l.r.inf() { Tail::Inf } else { Tail::Aff }, ps }
}

pub fn from(ps: &[Piece], x: Fraction) -> usize {
    ps.partition_point(|p| p.x < x)
}

/// The curve with these pieces and this tail: pieces joined, the least period, the least rank.
pub fn normal(mut ps: Vec<Piece>, rank: Fraction, tail: Tail) -> Curve {
    let (d, c) = match tail {
        Tail::Aff => return simple(ps),
        Tail::Inf => {
            let i = from(&ps, rank);
            let at = if i < ps.len() && ps[i].x == rank { ps[i].at } else { ps[i - 1].line(rank) };
            ps.truncate(i);
            ps.push(Piece::off(rank, at));
            return simple(ps);
        }
        Tail::Per(d, c) => (d, c),
    };
    let b = from(&ps, rank);
    if b == ps.len() || ps[b].x != rank {
        let l = ps[b - 1];
        ps.insert(b, Piece::new(rank, l.line(rank), l.k, l.r));
    }
    // break points of the tail, taken as a circle
    let last = ps[ps.len() - 1];
    let (mut pk, mut pr) = (if last.r.inf() { INF } else { last.k.sub(c).add(last.r.mul(d)) }, last.r);
    let mut breaks: Vec<Piece> = Vec::with_capacity(ps.len() - b);
    for q in &ps[b..] {
        let same =
            q.r == pr && (q.r.inf() && q.at.inf() || !q.r.inf() && q.k == pk && !q.at.inf() && q.at == q.line(q.x));
        if !same {
            breaks.push(*q);
        }
        (pk, pr) = (q.k, q.r);
    }
    if breaks.is_empty() {
        ps.truncate(b + 1);
        return simple(ps);
    }
    let n = fold_count(&breaks, d, c);
    let (d, c) = if n == 1 { (d, c) } else { (d.div(Fraction::int(n)), c.div(Fraction::int(n))) };
    if n > 1 {
        let e = from(&ps, rank.add(d));
        ps.truncate(e);
    }
    // merge, minding where the tail is
    let mut head = b; // of the merged list: pieces before the rank
    {
        let mut w = 1;
        for i in 1..ps.len() {
            if i == b {
                head = w;
            }
            let q = ps[i];
            let l = ps[w - 1];
            if l.r == q.r && (q.r.inf() && q.at.inf() || !q.r.inf() && l.k == q.k && !q.at.inf() && q.at == q.line(q.x))
            {
                continue;
            }
            if w != i {
                ps[w] = q;
            }
            w += 1;
        }
        if b == 0 {
            head = 0;
        }
        ps.truncate(w);
    }
    // the least rank
    let mut new_rank = None;
    let mut up = rank;
    if b > 0 {
        // pairs (g, g + d), from the right: i over pieces before the rank, j over those before rank + d
        let mut i = head as isize - 1;
        let mut j = ps.len() as isize - 1;
        // candidate grid points: starts before the rank, and starts less d
        loop {
            let gi = if i >= 0 { Some(ps[i as usize].x) } else { None };
            let gj = if j >= 0 && ps[j as usize].x >= d { Some(ps[j as usize].x.sub(d)) } else { None };
            let g = match (gi, gj) {
                (None, None) => break,
                (Some(a), None) => a,
                (None, Some(b)) => b,
                (Some(a), Some(b)) => a.max(b),
            };
            if g >= rank {
                j -= 1;
                continue;
            }
            let p = ps[i as usize];
            let q = ps[j as usize];
            let far = g.add(d);
            if p.r != q.r || !p.r.inf() && q.line(far) != p.line(g).add(c) {
                new_rank = Some(first_from(&ps, up, false));
                break;
            }
            let u = if p.x == g { p.at } else { p.line(g) };
            let v = if q.x == far { q.at } else { q.line(far) };
            if u.inf() != v.inf() || !u.inf() && v != u.add(c) {
                new_rank = Some(first_from(&ps, g, true));
                break;
            }
            up = g;
            if gi == Some(g) {
                i -= 1;
            }
            if gj == Some(g) {
                j -= 1;
            }
            if g.zero() {
                break;
            }
        }
    }
    let new_rank = match new_rank {
        None => ZERO,
        Some(Some(r)) => r,
        Some(None) => {
            // past the end: the first break of the next period
            rank.add(d)
        }
    };
    let end = new_rank.add(d);
    if new_rank > rank {
        // unroll as far as needed; the copies of the tail from the rank on
        let h = head;
        let base_line = if h < ps.len() && ps[h].x == rank {
            None
        } else {
            Some(Piece::new(rank, ps[h - 1].line(rank), ps[h - 1].k, ps[h - 1].r))
        };
        let tail: Vec<Piece> = base_line.into_iter().chain(ps[h..].iter().copied()).collect();
        for q in &tail {
            let m = q.moved(d, c);
            if m.x < end {
                emit(&mut ps, m.x, m.at, m.k, m.r);
            }
        }
    } else {
        let e = from(&ps, end);
        ps.truncate(e);
    }
    Curve { ps, rank: new_rank, tail: Tail::Per(d, c) }
}

fn first_from(ps: &[Piece], t: Fraction, strictly: bool) -> Option<Fraction> {
    let i = ps.partition_point(|p| p.x <= t);
    if !strictly && i > 0 && ps[i - 1].x == t {
        return Some(t);
    }
    ps.get(i).map(|p| p.x)
}

/// The largest n such that d / n is a period of the tail with these break points.
fn fold_count(b: &[Piece], d: Fraction, c: Fraction) -> i128 {
    let m = b.len();
    let mut n = 1usize;
    let mut rest = m;
    let mut p = 2;
    while rest > 1 {
        if p * p > rest {
            p = rest;
        }
        if rest % p != 0 {
            p += 1;
            continue;
        }
        while rest % p == 0 {
            rest /= p;
            if folds(b, d, c, n * p) {
                n *= p;
            } else {
                while rest % p == 0 {
                    rest /= p;
                }
                break;
            }
        }
        p += 1;
    }
    n as i128
}

fn folds(b: &[Piece], d: Fraction, c: Fraction, n: usize) -> bool {
    let m = b.len();
    let s = m / n;
    // cheap looks first
    for i in 0..m - s {
        if b[i].r != b[i + s].r || b[i].at.inf() != b[i + s].at.inf() {
            return false;
        }
    }
    let nn = Fraction::int(n as i128);
    let (dd, cc) = (d.div(nn), c.div(nn));
    for i in 0..m {
        let j = (i + s) % m;
        let w = i + s >= m;
        let p = &b[i];
        let q = &b[j];
        if p.r != q.r || p.at.inf() != q.at.inf() {
            return false;
        }
        let (mut y, mut bt) = (q.x, q.at);
        if w {
            y = y.add(d);
            if !bt.inf() {
                bt = bt.add(c);
            }
        }
        if y != p.x.add(dd) {
            return false;
        }
        if !bt.inf() && bt != p.at.add(cc) {
            return false;
        }
        if !p.r.inf() {
            let right = q.line(q.x).add(if w { c } else { ZERO });
            if right != p.line(p.x).add(cc) {
                return false;
            }
        }
    }
    true
}

/// From pieces on [0, rank + period), periodic from the rank on.
pub fn from_list(mut ps: Vec<Piece>, rank: Fraction, d: Fraction, c: Fraction) -> Curve {
    let h = rank.add(d);
    while ps.len() > 1 && ps[ps.len() - 1].x >= h {
        ps.pop();
    }
    normal(ps, rank, Tail::Per(d, c))
}

impl Curve {
    #[inline]
    pub fn period(&self) -> Option<Fraction> {
        match self.tail {
            Tail::Per(d, _) => Some(d),
            _ => None,
        }
    }
    #[inline]
    pub fn rate(&self) -> Fraction {
        match self.tail {
            Tail::Per(d, c) => c.div(d),
            Tail::Aff => self.ps[self.ps.len() - 1].r,
            Tail::Inf => INF,
        }
    }
    /// The time from which the curve goes on as its tail says, at that time too.
    #[inline]
    pub fn t(&self) -> Fraction {
        let p = &self.ps[self.ps.len() - 1];
        match self.tail {
            Tail::Per(..) => self.rank,
            Tail::Aff => {
                if p.at == p.line(p.x) {
                    self.rank
                } else {
                    self.rank.add(ONE)
                }
            }
            Tail::Inf => {
                if p.at.inf() {
                    self.rank
                } else {
                    self.rank.add(ONE)
                }
            }
        }
    }
    pub fn rise_over(&self, d: Fraction) -> Fraction {
        match self.tail {
            Tail::Per(e, c) if e == d => c,
            _ => {
                let r = self.rate();
                if r.inf() {
                    INF
                } else {
                    r.mul(d)
                }
            }
        }
    }
    pub fn finite(&self) -> bool {
        self.tail != Tail::Inf && self.ps.iter().all(|p| !p.at.inf() && !p.r.inf())
    }
    pub fn value(&self, t: Fraction) -> Fraction {
        if self.tail == Tail::Inf && t > self.rank {
            return INF;
        }
        let mut t = t;
        let mut up = ZERO;
        if let Tail::Per(d, c) = self.tail {
            if t >= self.rank.add(d) {
                let n = Fraction::int(t.sub(self.rank).floor_div(d));
                t = t.sub(n.mul(d));
                up = n.mul(c);
            }
        }
        let i = self.ps.partition_point(|p| p.x <= t) - 1;
        let p = &self.ps[i];
        let v = if p.x == t { p.at } else { p.line(t) };
        if v.inf() {
            INF
        } else {
            v.add(up)
        }
    }
    /// Pieces on [lo, hi), the first at lo.
    pub fn between(&self, lo: Fraction, hi: Fraction) -> Cow<'_, [Piece]> {
        let ps = &self.ps;
        let rank = self.rank;
        match self.tail {
            Tail::Per(d, c) if hi > rank.add(d) => {
                let base = from(ps, rank);
                let mut out: Vec<Piece>;
                let mut n = 0i128;
                let count = ps.len() - base;
                if lo < rank {
                    let i = ps.partition_point(|p| p.x <= lo) - 1;
                    out = Vec::with_capacity((ps.len() - i) * 2 + 4);
                    out.extend_from_slice(&ps[i..]);
                    n = 1;
                } else {
                    if lo.sub(rank) >= d {
                        n = lo.sub(rank).floor_div(d);
                    }
                    out = Vec::with_capacity(count * 2 + 4);
                }
                loop {
                    let (nd, nc) = if n == 0 {
                        (ZERO, ZERO)
                    } else if n == 1 {
                        (d, c)
                    } else {
                        (Fraction::int(n).mul(d), Fraction::int(n).mul(c))
                    };
                    let mut done = false;
                    for p in &ps[base..] {
                        let y = p.x.add(nd);
                        if y >= hi {
                            done = true;
                            break;
                        }
                        let mut q = *p;
                        if n != 0 {
                            q.x = y;
                            if !q.at.inf() {
                                q.at = q.at.add(nc);
                            }
                            if !q.r.inf() {
                                q.k = q.k.add(nc);
                                if !q.r.zero() {
                                    q.k = q.k.sub(q.r.mul(nd));
                                }
                            }
                        }
                        out.push(q);
                    }
                    if done {
                        break;
                    }
                    n += 1;
                }
                let i = out.partition_point(|p| p.x <= lo) - 1;
                if i > 0 {
                    out.drain(..i);
                }
                clip(&mut out[0], lo);
                Cow::Owned(out)
            }
            _ => {
                let i = if lo.zero() { 0 } else { ps.partition_point(|p| p.x <= lo) - 1 };
                let e = if ps[ps.len() - 1].x < hi { ps.len() } else { from(ps, hi) };
                if ps[i].x == lo {
                    Cow::Borrowed(&ps[i..e])
                } else {
                    let mut out = ps[i..e].to_vec();
                    clip(&mut out[0], lo);
                    Cow::Owned(out)
                }
            }
        }
    }
}

#[inline]
fn clip(p: &mut Piece, lo: Fraction) {
    if p.x < lo {
        p.at = p.line(lo);
        p.x = lo;
    }
}

pub fn common(f: &Curve, g: &Curve) -> Fraction {
    match (f.period(), g.period()) {
        (None, None) => ONE,
        (Some(a), None) => a,
        (None, Some(b)) => b,
        (Some(a), Some(b)) => {
            if a == b {
                a
            } else {
                Fraction::lcm(a, b)
            }
        }
    }
}

pub fn affine(k: Fraction, r: Fraction) -> Curve {
    Curve { ps: vec![Piece::new(ZERO, k, k, r)], rank: ZERO, tail: Tail::Aff }
}
pub fn nowhere() -> Curve {
    Curve { ps: vec![Piece::off(ZERO, INF)], rank: ZERO, tail: Tail::Inf }
}
