//! Networks from TOML.
use crate::conv::close;
use crate::curve::*;
use crate::frac::*;
use crate::toml::{Table, Value};
use std::collections::HashMap;
use std::rc::Rc;

pub enum Disc {
    Fifo,
    Prio,
    Drr(Vec<u32>),
}
/// Open for a slot at the start of each cycle.
#[derive(Clone, Copy)]
pub struct Gate {
    pub cycle: Fraction,
    pub slot: Fraction,
}
pub struct Server {
    pub name: String,
    pub rate: Fraction,
    pub gate: Option<Gate>,
    pub is_listed: bool,
    pub service: Rc<Curve>,
    pub link: Fraction,
    pub disc: Disc,
    pub nq: usize,
}
pub struct Flow {
    pub name: String,
    pub packet: u32,
    pub arrival: Rc<Curve>,
    pub path: Vec<(u32, u32)>,
}
pub struct Net {
    pub version: u32,
    pub servers: Vec<Server>,
    pub flows: Vec<Flow>,
}

pub fn frac(s: &str) -> Option<Fraction> {
    let (neg, s) = match s.strip_prefix('-') {
        Some(r) => (true, r),
        None => (false, s),
    };
    let (p, q) = match s.split_once('/') {
        Some((p, q)) => (p, q),
        None => (s, "1"),
    };
    let digits = |t: &str| -> Option<i128> {
        if t.is_empty() || !t.bytes().all(|c| c.is_ascii_digit()) {
            return None;
        }
        t.parse().ok()
    };
    let (p, q) = (digits(p)?, digits(q)?);
    if q == 0 {
        return None;
    }
    Some(if q == 1 { Fraction::int(if neg { -p } else { p }) } else { Fraction::new(if neg { -p } else { p }, q) })
}

fn num(t: &Table, k: &str) -> Option<Option<Fraction>> {
    match t.get(k) {
        None => Some(None),
        Some(Value::Int(n)) => Some(Some(Fraction::int(*n))),
        Some(Value::Str(s)) => Some(Some(frac(s)?)),
        _ => None,
    }
}
fn need(t: &Table, k: &str) -> Option<Fraction> {
    num(t, k)?
}
fn or(t: &Table, k: &str, d: Fraction) -> Option<Fraction> {
    Some(num(t, k)?.unwrap_or(d))
}
fn text<'a>(t: &'a Table, k: &str) -> Option<&'a str> {
    match t.get(k) {
        Some(Value::Str(s)) => Some(s),
        _ => None,
    }
}
fn known(t: &Table, keys: &[&str]) -> Option<()> {
    t.0.iter().all(|e| keys.contains(&&*e.0)).then_some(())
}

fn rate_latency(r: Fraction, t: Fraction) -> Curve {
    let mut ps = Vec::with_capacity(2);
    if t.n > 0 {
        ps.push(Piece::new(ZERO, ZERO, ZERO, ZERO));
    }
    ps.push(Piece::new(t, ZERO, r.mul(t).neg(), r));
    normal(ps, t, Tail::Aff)
}

fn gate(r: Fraction, cycle: Fraction, slot: Fraction) -> Curve {
    let off = cycle.sub(slot);
    let mut ps = Vec::with_capacity(2);
    if off.n > 0 {
        ps.push(Piece::new(ZERO, ZERO, ZERO, ZERO));
    }
    ps.push(Piece::new(off, ZERO, r.mul(off).neg(), r));
    normal(ps, ZERO, Tail::Per(cycle, r.mul(slot)))
}

pub fn stair(l: u32, period: Fraction, jitter: Fraction) -> Curve {
    let l = Fraction::int(l as i128);
    let n = Fraction::int(jitter.div(period).floor() + 1);
    let first = n.mul(period).sub(jitter);
    let v = l.mul(n);
    let mut ps = vec![Piece::new(ZERO, v, v, ZERO)];
    if first < period {
        let w = v.add(l);
        ps.push(Piece::new(first, w, w, ZERO));
    }
    normal(ps, ZERO, Tail::Per(period, l))
}

fn rising(c: &Curve) -> bool {
    let h = match c.tail {
        Tail::Per(d, _) => c.rank.add(d).add(d),
        _ => c.rank.add(ONE),
    };
    let ps = c.between(ZERO, h);
    let mut before: Option<Fraction> = None;
    for (i, p) in ps.iter().enumerate() {
        if p.r.n < 0 {
            return false;
        }
        let after = p.line(p.x);
        if let Some(b) = before {
            if b > p.at {
                return false;
            }
        }
        if i > 0 && p.at > after || i == 0 && p.at > after {
            return false;
        }
        if i + 1 < ps.len() {
            before = Some(p.line(ps[i + 1].x));
        }
    }
    true
}

fn listed(t: &Table) -> Option<Curve> {
    let Some(Value::Arr(arr)) = t.get("piece") else { return None };
    let mut ps = Vec::with_capacity(arr.len());
    for v in arr {
        let Value::Tab(p) = v else { return None };
        known(p, &["x", "at", "after", "slope"])?;
        let x = need(p, "x")?;
        let at = need(p, "at")?;
        let after = or(p, "after", at)?;
        let slope = or(p, "slope", ZERO)?;
        if x.n < 0 || at.n < 0 || after.n < 0 {
            return None;
        }
        if let Some(l) = ps.last() {
            let l: &Piece = l;
            if l.x >= x {
                return None;
            }
        } else if x.n != 0 {
            return None;
        }
        ps.push(Piece::new(x, at, after.sub(slope.mul(x)), slope));
    }
    let last = ps.last()?.x;
    let c = match t.get("tail") {
        None => normal(ps, last, Tail::Aff),
        Some(Value::Tab(u)) => {
            known(u, &["rank", "period", "rise"])?;
            let (rank, period) = (need(u, "rank")?, need(u, "period")?);
            let rise = need(u, "rise")?;
            if last >= rank.add(period) {
                return None;
            }
            normal(ps, rank, Tail::Per(period, rise))
        }
        _ => return None,
    };
    rising(&c).then_some(c)
}

fn continuous(c: &Curve) -> bool {
    let ps = &c.ps;
    for (i, p) in ps.iter().enumerate() {
        if p.at != p.line(p.x) {
            return false;
        }
        let (end, next) = if i + 1 < ps.len() {
            (ps[i + 1].x, ps[i + 1].at)
        } else {
            match c.tail {
                Tail::Per(d, v) => (c.rank.add(d), c.value(c.rank).add(v)),
                _ => continue,
            }
        };
        if p.line(end) != next {
            return false;
        }
    }
    ps[0].at.zero()
}

fn server(t: &Table) -> Option<Server> {
    known(t, &["name", "rate", "service", "link", "discipline", "queues", "quanta"])?;
    let name = text(t, "name")?.to_string();
    let rate = need(t, "rate")?;
    if rate.n <= 0 {
        return None;
    }
    let (mut opening, mut is_listed) = (None, false);
    let service = match t.get("service") {
        None => rate_latency(rate, ZERO),
        Some(Value::Tab(s)) => match text(s, "kind")? {
            "latency" => {
                known(s, &["kind", "latency"])?;
                rate_latency(rate, or(s, "latency", ZERO)?)
            }
            "gate" => {
                known(s, &["kind", "cycle", "slot"])?;
                let (cycle, slot) = (need(s, "cycle")?, need(s, "slot")?);
                opening = Some(Gate { cycle, slot });
                gate(rate, cycle, slot)
            }
            "list" => {
                known(s, &["kind", "piece", "tail"])?;
                let c = listed(s)?;
                if !continuous(&c) {
                    return None;
                }
                is_listed = true;
                c
            }
            _ => return None,
        },
        _ => return None,
    };
    let link = or(t, "link", ZERO)?;
    let (disc, nq) = match t.get("discipline") {
        None => (Disc::Fifo, 1),
        Some(Value::Str(s)) => match &**s {
            "fifo" => (Disc::Fifo, 1),
            "priority" => match t.get("queues") {
                Some(Value::Int(n)) if (1..=8).contains(n) => (Disc::Prio, *n as usize),
                _ => return None,
            },
            "drr" => match t.get("quanta") {
                Some(Value::Arr(a)) => {
                    let mut q = Vec::new();
                    for v in a {
                        match v {
                            Value::Int(n) if (1..=1 << 24).contains(n) => q.push(*n as u32),
                            _ => return None,
                        }
                    }
                    let n = q.len();
                    (Disc::Drr(q), n)
                }
                _ => return None,
            },
            _ => return None,
        },
        _ => return None,
    };
    Some(Server { name, rate, gate: opening, is_listed, service: Rc::new(service), link, disc, nq })
}

pub fn read(root: &Table) -> Option<Net> {
    known(root, &["version", "server", "flow"])?;
    let version = match root.get("version") {
        None | Some(Value::Int(1)) => 1,
        Some(Value::Int(2)) => 2,
        _ => return None,
    };
    let mut servers = Vec::new();
    let mut names: HashMap<&str, u32> = HashMap::new();
    if let Some(Value::Arr(a)) = root.get("server") {
        for v in a {
            let Value::Tab(t) = v else { return None };
            let s = server(t)?;
            if names.insert(text(t, "name")?, servers.len() as u32).is_some() {
                return None;
            }
            servers.push(s);
        }
    }
    let mut flows = Vec::new();
    let mut taken: HashMap<&str, ()> = HashMap::new();
    if let Some(Value::Arr(a)) = root.get("flow") {
        for v in a {
            let Value::Tab(t) = v else { return None };
            known(t, &["name", "packet", "arrival", "path"])?;
            let name = text(t, "name")?;
            if taken.insert(name, ()).is_some() {
                return None;
            }
            let packet = match t.get("packet") {
                Some(Value::Int(n)) if (1..=1 << 24).contains(n) => *n as u32,
                _ => return None,
            };
            let Some(Value::Tab(s)) = t.get("arrival") else { return None };
            let arrival = match text(s, "kind")? {
                "bucket" => {
                    known(s, &["kind", "burst", "rate"])?;
                    let (b, r) = (need(s, "burst")?, need(s, "rate")?);
                    Curve { ps: vec![Piece::new(ZERO, b, b, r)], rank: ZERO, tail: Tail::Aff }
                }
                "stair" => {
                    known(s, &["kind", "period", "jitter"])?;
                    stair(packet, need(s, "period")?, or(s, "jitter", ZERO)?)
                }
                "list" => {
                    known(s, &["kind", "piece", "tail", "close"])?;
                    let c = listed(s)?;
                    match s.get("close") {
                        Some(Value::Bool(true)) => close(&c),
                        _ => c,
                    }
                }
                _ => return None,
            };
            let Some(Value::Arr(p)) = t.get("path") else { return None };
            let mut path = Vec::with_capacity(p.len());
            for e in p {
                let Value::Str(e) = e else { return None };
                let (n, q) = match e.split_once(':') {
                    Some((n, q)) => (n, q.parse().ok()?),
                    None => (&**e, 0u32),
                };
                let s = *names.get(n)?;
                if q as usize >= servers[s as usize].nq || path.iter().any(|x: &(u32, u32)| x.0 == s) {
                    return None;
                }
                path.push((s, q));
            }
            flows.push(Flow { name: name.to_string(), packet, arrival: Rc::new(arrival), path });
        }
    }
    Some(Net { version, servers, flows })
}

/// The order of the servers, or None where there is a cycle.
pub fn order(net: &Net) -> Option<Vec<u32>> {
    let n = net.servers.len();
    let mut next = vec![0u64; n];
    for f in &net.flows {
        for w in f.path.windows(2) {
            next[w[0].0 as usize] |= 1 << w[1].0;
        }
    }
    let mut before = vec![0u32; n];
    for s in 0..n {
        let mut m = next[s];
        while m != 0 {
            before[m.trailing_zeros() as usize] += 1;
            m &= m - 1;
        }
    }
    let mut ready = 0u64;
    for s in 0..n {
        if before[s] == 0 {
            ready |= 1 << s;
        }
    }
    let mut out = Vec::with_capacity(n);
    while ready != 0 {
        let s = ready.trailing_zeros();
        ready &= ready - 1;
        out.push(s);
        let mut m = next[s as usize];
        while m != 0 {
            let b = m.trailing_zeros();
            m &= m - 1;
            before[b as usize] -= 1;
            if before[b as usize] == 0 {
                ready |= 1 << b;
            }
        }
    }
    (out.len() == n).then_some(out)
}
