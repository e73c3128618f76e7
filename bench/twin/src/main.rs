//! `analyse`, `simulate` and `check` in plain Rust, unproved: the same reports, for times to be held against. It has no limits, and names
//! no faults; where a run breaks a service curve it says that alone, with status 3.
//! `shared` is `analyse`, but makes the sum of the other flows of a hop of the sums of those before it and of those after it, where the
//! equations, and so `analyse`, add the others up one by one.
//!
//!     twin analyse FILE
//!     twin shared FILE
//!     twin simulate FILE TRACE
//!     twin check FILE RUN
//!     twin operator NAME N TIMES

mod check;
mod conv;
mod curve;
mod frac;
mod net;
mod ops;
mod promises;
mod queues;
mod runs;
mod simulate;
mod toml;
mod trace;

use conv::*;
use curve::*;
use frac::*;
use net::*;
use ops::*;
use std::rc::Rc;

#[derive(Clone)]
struct Hop {
    input: Rc<Curve>,
    residual: Rc<Curve>,
    delay: Fraction,
}

struct Row {
    delay: Fraction,
    backlog: Fraction,
}

fn sum_of<'a>(mut it: impl Iterator<Item = &'a Rc<Curve>>, zero: &Rc<Curve>) -> Rc<Curve> {
    let Some(first) = it.next() else { return zero.clone() };
    let Some(second) = it.next() else { return first.clone() };
    let mut acc = sum(first, second);
    for c in it {
        acc = sum(&acc, c);
    }
    Rc::new(acc)
}

/// Of each flow the sum of the others, one after the other.
fn own_crosses(ins: &[&Rc<Curve>], zero: &Rc<Curve>) -> Vec<Rc<Curve>> {
    (0..ins.len()).map(|j| sum_of(ins.iter().enumerate().filter(|e| e.0 != j).map(|e| *e.1), zero)).collect()
}

/// The same of the sums of those before and of those after it.
fn shared_crosses(ins: &[&Rc<Curve>], zero: &Rc<Curve>) -> Vec<Rc<Curve>> {
    let both = |a: Option<Rc<Curve>>, b: &Rc<Curve>| a.map_or(b.clone(), |a| Rc::new(sum(&a, b)));
    let mut before: Vec<Option<Rc<Curve>>> = vec![None];
    for (j, curve) in ins.iter().enumerate() {
        before.push(Some(both(before[j].clone(), curve)));
    }
    let mut after: Option<Rc<Curve>> = None;
    let mut found = Vec::with_capacity(ins.len());
    for j in (0..ins.len()).rev() {
        found.push(match (&before[j], &after) {
            (a, Some(b)) => both(a.clone(), b),
            (Some(a), None) => a.clone(),
            (None, None) => zero.clone(),
        });
        after = Some(both(after, ins[j]));
    }
    found.reverse();
    found
}

/// The sum of the parts of a queue: the flows that enter there, and those that come from each server, which its rate cuts.
fn parts_sum(net: &Net, members: &[(u32, u32)], ins: &[&Rc<Curve>], zero: &Rc<Curve>) -> Rc<Curve> {
    let from: Vec<Option<u32>> =
        members.iter().map(|&(i, k)| k.checked_sub(1).map(|k| net.flows[i as usize].path[k as usize].0)).collect();
    let mut sources = from.clone();
    sources.sort_unstable();
    sources.dedup();
    let mut parts = Vec::with_capacity(sources.len());
    for source in sources {
        let of_part = || (0..ins.len()).filter(|&j| from[j] == source);
        let whole = sum_of(of_part().map(|j| ins[j]), zero);
        parts.push(match source {
            None => whole,
            Some(server) => {
                let longest = of_part().map(|j| net.flows[members[j].0 as usize].packet).max().unwrap_or(0);
                let line = affine(Fraction::int(longest as i128), net.servers[server as usize].rate);
                Rc::new(min(&whole, &line))
            }
        });
    }
    sum_of(parts.iter(), zero)
}

fn total(values: &[Fraction]) -> Fraction {
    let mut s = ZERO;
    for v in values {
        if v.inf() {
            return INF;
        }
        s = s.add(*v);
    }
    s
}

/// The delays and backlogs of each queue, and of each flow the sum of its delays, the bound by its path's service, and the lesser.
fn analyse(net: &Net, order: &[u32], is_shared: bool) -> (Vec<Vec<Row>>, Vec<[Fraction; 3]>) {
    let zero = Rc::new(affine(ZERO, ZERO));
    let mut at: Vec<Vec<Vec<(u32, u32)>>> = net.servers.iter().map(|s| vec![Vec::new(); s.nq]).collect();
    for (i, f) in net.flows.iter().enumerate() {
        for (k, &(s, q)) in f.path.iter().enumerate() {
            at[s as usize][q as usize].push((i as u32, k as u32));
        }
    }
    let mut hops: Vec<Vec<Hop>> = net.flows.iter().map(|f| Vec::with_capacity(f.path.len())).collect();
    let mut next: Vec<Rc<Curve>> = net.flows.iter().map(|f| f.arrival.clone()).collect();
    let mut rows: Vec<Vec<Row>> = net.servers.iter().map(|_| Vec::new()).collect();
    for &s in order {
        let sv = &net.servers[s as usize];
        let queues = &at[s as usize];
        let longest: Vec<u32> =
            queues.iter().map(|m| m.iter().map(|&(i, _)| net.flows[i as usize].packet).max().unwrap_or(0)).collect();
        // totals and crosses
        let mut crosses: Vec<Vec<Rc<Curve>>> = Vec::with_capacity(sv.nq);
        let mut totals: Vec<Rc<Curve>> = Vec::with_capacity(sv.nq);
        for m in queues {
            let ins: Vec<&Rc<Curve>> = m.iter().map(|&(i, _)| &next[i as usize]).collect();
            crosses.push(if is_shared { shared_crosses(&ins, &zero) } else { own_crosses(&ins, &zero) });
            totals.push(match net.version {
                1 => sum_of(ins.iter().copied(), &zero),
                _ => parts_sum(net, m, &ins, &zero),
            });
        }
        // services of queues
        let mut services: Vec<Rc<Curve>> = Vec::with_capacity(sv.nq);
        match &sv.disc {
            Disc::Fifo => services.push(sv.service.clone()),
            Disc::Prio => {
                let mut higher: Rc<Curve> = zero.clone();
                for q in 0..sv.nq {
                    if q > 0 {
                        higher = sum_of(totals[..q].iter(), &zero);
                    }
                    let lower = longest[q + 1..].iter().copied().max().unwrap_or(0);
                    let l = Fraction::int(lower as i128);
                    services.push(Rc::new(run_sup(&pos_minus(&pos_diff(&sv.service, &higher), l))));
                }
            }
            Disc::Drr(quanta) => {
                let f: i128 = quanta.iter().map(|&q| q as i128).sum();
                let ls: i128 = longest.iter().map(|&l| l as i128).sum();
                for q in 0..sv.nq {
                    let (n, l) = (quanta[q] as i128, longest[q] as i128);
                    services.push(Rc::new(pos_minus(
                        &scale(&sv.service, Fraction::new(n, f)),
                        Fraction::new(n * (ls - l) + (f - n) * (n + l), f),
                    )));
                }
            }
        }
        for q in 0..sv.nq {
            let beta = &services[q];
            let delay = horizontal(&totals[q], beta);
            let backlog = vertical(&totals[q], &pos_minus(beta, Fraction::int(longest[q] as i128)));
            rows[s as usize].push(Row { delay, backlog });
            for (j, &(i, k)) in queues[q].iter().enumerate() {
                let flow = &net.flows[i as usize];
                let cross = &crosses[q][j];
                let theta = horizontal(cross, beta);
                let residual = Rc::new(fifo_left(beta, cross, theta));
                let input = next[i as usize].clone();
                let own = delay.min(horizontal(&input, &residual));
                if (k as usize) + 1 < flow.path.len() {
                    let c = Rc::new(pos_minus(&residual, Fraction::int(flow.packet as i128)));
                    let moved = shift(&input, own);
                    let out = min(&moved, &deconvolve(&input, &c));
                    next[i as usize] = Rc::new(out);
                }
                hops[i as usize].push(Hop { input, residual, delay: own });
            }
        }
    }
    let mut out = Vec::with_capacity(net.flows.len());
    for (i, f) in net.flows.iter().enumerate() {
        let h = &hops[i];
        let n = h.len();
        let l = Fraction::int(f.packet as i128);
        let cut = |k: usize| Rc::new(pos_minus(&h[k].residual, l));
        let mut acc = if n == 1 { h[0].residual.clone() } else { cut(0) };
        for k in 1..n {
            let next = if k + 1 == n { h[k].residual.clone() } else { cut(k) };
            acc = Rc::new(convolve(&acc, &next));
        }
        let links: Vec<Fraction> = f.path.iter().map(|&(s, _)| net.servers[s as usize].link).collect();
        let tfa = total(&h.iter().zip(&links).flat_map(|(h, l)| [h.delay, *l]).collect::<Vec<_>>());
        let mut v = vec![horizontal(&h[0].input, &acc)];
        v.extend(links);
        let sfa = total(&v);
        out.push([tfa, sfa, tfa.min(sfa)]);
    }
    (rows, out)
}

/// One operator, so many times, on stairs that turn n and n + 1 times before both have turned together.
fn operate(name: &str, n: i128, times: u32) -> usize {
    let f = stair(1, ONE, ZERO);
    let g = stair(1, Fraction::new(n, n + 1), ZERO);
    let mut pieces = 0;
    for _ in 0..times {
        let made = match name {
            "sum" => sum(&f, &g),
            "min" => min(&f, &g),
            "conv" => convolve(&f, &g),
            _ => std::process::exit(2),
        };
        pieces = made.ps.len();
    }
    pieces
}

fn report(net: &Net, (rows, flows): &(Vec<Vec<Row>>, Vec<[Fraction; 3]>)) -> String {
    use std::fmt::Write;
    let mut out = String::new();
    let _ = writeln!(out, "servers {} flows {}", net.servers.len(), net.flows.len());
    for (s, r) in net.servers.iter().zip(rows) {
        for (q, r) in r.iter().enumerate() {
            let _ = write!(out, "queue {} {} delay ", s.name, q);
            r.delay.show(&mut out);
            out.push_str(" backlog ");
            r.backlog.show(&mut out);
            out.push('\n');
        }
    }
    for (f, v) in net.flows.iter().zip(flows) {
        let _ = write!(out, "flow {} tfa ", f.name);
        v[0].show(&mut out);
        out.push_str(" sfa ");
        v[1].show(&mut out);
        out.push_str(" bound ");
        v[2].show(&mut out);
        out.push('\n');
    }
    out
}

fn read_text(path: &str) -> String {
    let bytes = std::fs::read(path).unwrap();
    String::from_utf8(bytes).unwrap_or_else(|_| std::process::exit(1))
}

fn main() {
    let words: Vec<String> = std::env::args().collect();
    if let [_, mode, name, n, times] = &words[..] {
        if mode == "operator" {
            println!("{}", operate(name, n.parse().unwrap(), times.parse().unwrap()));
            return;
        }
    }
    let text = read_text(&words[2]);
    let Some(tree) = toml::parse(&text) else {
        println!("twin: M1");
        std::process::exit(1)
    };
    let Some(net) = read(&tree) else {
        println!("twin: malformed");
        std::process::exit(1)
    };
    let Some(order) = order(&net) else {
        println!("twin: cycle");
        std::process::exit(8)
    };
    let bounds = || analyse(&net, &order, words[1] == "shared");
    let (out, status) = match &*words[1] {
        "simulate" => runs::simulated(&net, &read_text(&words[3]), bounds),
        "check" => runs::checked(&net, &read_text(&words[3]), bounds),
        _ => (report(&net, &bounds()), 0),
    };
    use std::io::Write as W;
    let _ = std::io::stdout().write_all(out.as_bytes());
    std::process::exit(status)
}
