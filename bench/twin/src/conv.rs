//! Convolution, deconvolution and closure, by the lower envelope of pairs of elements.
use crate::curve::*;
use crate::frac::*;
use crate::ops::{low, min};

fn lower_all(mut lists: Vec<Vec<Piece>>, lo: Fraction, hi: Fraction) -> Vec<Piece> {
    if lists.is_empty() {
        return vec![Piece::off(lo, INF)];
    }
    while lists.len() > 1 {
        let n = lists.len();
        for i in 0..n / 2 {
            let m = low(&lists[2 * i], &lists[2 * i + 1], hi);
            lists[i] = m;
        }
        if n % 2 == 1 {
            let l = std::mem::take(&mut lists[n - 1]);
            lists[n / 2] = l;
        }
        lists.truncate(n.div_ceil(2));
    }
    lists.pop().unwrap()
}

/// Slopes with both infinities: (-1, _), (0, r), (1, _).
type Slope = (i8, Fraction);
const DOWN: Slope = (-1, ZERO);
const UP: Slope = (1, ZERO);

/// At each start: the limits from the left and from the right. INF where there is none.
fn limits(f: &[Piece], end: Fraction) -> (Vec<Fraction>, Vec<Fraction>) {
    let n = f.len();
    let mut left = Vec::with_capacity(n + 1);
    let mut right = Vec::with_capacity(n + 1);
    left.push(INF);
    for (i, p) in f.iter().enumerate() {
        right.push(p.line(p.x));
        left.push(p.line(if i + 1 < n { f[i + 1].x } else { end }));
    }
    right.push(INF);
    (left, right)
}

/// g moved by (x, v), with other values at its starts, on [lo, hi).
fn row(
    g: &[Piece],
    at: &[Fraction],
    x: Fraction,
    v: Fraction,
    end: Fraction,
    lo: Fraction,
    hi: Fraction,
) -> Option<Vec<Piece>> {
    let n = g.len();
    if g[0].x.add(x) >= hi || end.add(x) < lo {
        return None;
    }
    let mut out = Vec::with_capacity(n + 2);
    let still = v.zero();
    let mut i = 0;
    let below = lo.sub(x);
    if g[0].x < below {
        i = g.partition_point(|p| p.x <= below) - 1;
    }
    let stop = hi.sub(x);
    while i < n {
        let p = &g[i];
        if p.x >= stop {
            return Some(out);
        }
        let mut q = Piece { x: p.x.add(x), at: at[i], k: p.k, r: p.r };
        if !q.at.inf() && !still {
            q.at = q.at.add(v);
        }
        if !q.r.inf() {
            if !still {
                q.k = q.k.add(v);
            }
            if !q.r.zero() && !x.zero() {
                q.k = q.k.sub(q.r.mul(x));
            }
        }
        if out.is_empty() {
            if q.x > lo {
                out.push(Piece::off(lo, INF));
            } else if q.x < lo {
                q.at = q.line(lo);
                q.x = lo;
            }
        }
        out.push(q);
        i += 1;
    }
    if !out[out.len() - 1].r.inf() {
        let e = end.add(x);
        if e < hi {
            out.push(Piece::off(e, INF));
        }
    }
    Some(out)
}

/// The values of g at its starts, or the lesser of these and its limits from the right, from the left.
fn values(g: &[Piece], limits: &(Vec<Fraction>, Vec<Fraction>), right: bool, left: bool) -> Vec<Fraction> {
    (0..g.len())
        .map(|j| {
            let here = if right { g[j].at.min(limits.1[j]) } else { g[j].at };
            if left {
                here.min(limits.0[j])
            } else {
                here
            }
        })
        .collect()
}

/// The rows of the starts of f at which it turns up, with g.
fn rows_of(
    f: &[Piece],
    fe: Fraction,
    g: &[Piece],
    ge: Fraction,
    fl: &(Vec<Fraction>, Vec<Fraction>),
    gl: &(Vec<Fraction>, Vec<Fraction>),
    lo: Fraction,
    hi: Fraction,
    rows: &mut Vec<(Fraction, Vec<Piece>)>,
) {
    let n = f.len();
    let mut by_right: Option<Vec<Fraction>> = None;
    let mut by_left: Option<Vec<Fraction>> = None;
    let mut at_starts: [Option<Vec<Fraction>>; 4] = [None, None, None, None];
    for i in 0..=n {
        let x = if i < n { f[i].x } else { fe };
        if x.add(g[0].x) >= hi {
            break;
        }
        let at = if i < n { f[i].at } else { INF };
        let (l, r) = (fl.0[i], fl.1[i]);
        let rl: Slope = if i > 0 && !f[i - 1].r.inf() { (0, f[i - 1].r) } else { DOWN };
        let rr: Slope = if i < n && !f[i].r.inf() { (0, f[i].r) } else { UP };
        if !at.inf() {
            let a = match l.cmp(&at) {
                std::cmp::Ordering::Less => UP,
                std::cmp::Ordering::Equal => rl,
                _ => DOWN,
            };
            let b = match r.cmp(&at) {
                std::cmp::Ordering::Less => DOWN,
                std::cmp::Ordering::Equal => rr,
                _ => UP,
            };
            if a <= b {
                // values of g at its starts: also its limits where f goes on without a jump
                let which = (l == at) as usize + 2 * (r == at) as usize;
                let vals = at_starts[which].get_or_insert_with(|| values(g, gl, l == at, r == at));
                if let Some(q) = row(g, vals, x, at, ge, lo, hi) {
                    rows.push((x, q));
                }
            }
        }
        if l < at {
            let b = match r.cmp(&l) {
                std::cmp::Ordering::Less => DOWN,
                std::cmp::Ordering::Equal => rr,
                _ => UP,
            };
            if rl <= b {
                let vals = by_right.get_or_insert_with(|| (0..g.len()).map(|j| gl.1[j]).collect());
                if let Some(q) = row(g, vals, x, l, ge, lo, hi) {
                    rows.push((x, q));
                }
            }
        }
        if r < at {
            let a = match l.cmp(&r) {
                std::cmp::Ordering::Less => UP,
                std::cmp::Ordering::Equal => rl,
                _ => DOWN,
            };
            if a <= rr {
                let vals = by_left.get_or_insert_with(|| (0..g.len()).map(|j| gl.0[j]).collect());
                if let Some(q) = row(g, vals, x, r, ge, lo, hi) {
                    rows.push((x, q));
                }
            }
        }
    }
}

/// On [lo, hi) the infimum of f(s) + g(t - s), of piece lists that end at fe and ge. At the best split one of the two turns up.
fn joined(f: &[Piece], fe: Fraction, g: &[Piece], ge: Fraction, lo: Fraction, hi: Fraction) -> Vec<Piece> {
    let (fl, gl) = (limits(f, fe), limits(g, ge));
    let mut rows = Vec::with_capacity(f.len() + g.len());
    rows_of(f, fe, g, ge, &fl, &gl, lo, hi, &mut rows);
    rows_of(g, ge, f, fe, &gl, &fl, lo, hi, &mut rows);
    rows.sort_by(|a, b| a.0.cmp(&b.0));
    lower_all(rows.into_iter().map(|r| r.1).collect(), lo, hi)
}

/// t -> g(-t) of pieces on [0, end).
fn mirrored(g: &[Piece], end: Fraction) -> Vec<Piece> {
    let n = g.len();
    let mut out = Vec::with_capacity(n + 1);
    let mut at = INF;
    for i in (0..n).rev() {
        let e = if i + 1 < n { g[i + 1].x } else { end };
        let p = &g[i];
        out.push(if p.r.inf() { Piece::off(e.neg(), at) } else { Piece::new(e.neg(), at, p.k, p.r.neg()) });
        at = p.at;
    }
    out.push(Piece::off(g[0].x.neg(), at));
    out
}

pub fn convolve(f: &Curve, g: &Curve) -> Curve {
    let d = common(f, g);
    let (rf, rg) = (f.rate(), g.rate());
    let (tf, tg) = (f.t(), g.t());
    let e = tf.add(tg).add(d);
    let (a, b) = (f.rise_over(d), g.rise_over(d));
    let rise = a.min(b);
    let rise = if rise.inf() { ZERO } else { rise };
    let (slow, fast, ts, tq, rs, rq) = if rf < rg { (f, g, tf, tg, rf, rg) } else { (g, f, tg, tf, rg, rf) };
    // A split whose part of the faster curve is later than a period past where that repeats is no better than one a period earlier.
    let enough = tq.add(d);
    if ts.zero() {
        let h = e.add(d);
        let ps = joined(&slow.between(ZERO, h), h, &fast.between(ZERO, enough), enough, ZERO, h);
        return from_list(ps, e, d, rise);
    }
    if rf == rg {
        let h = e.add(d);
        let ps = joined(&f.between(ZERO, h), h, &g.between(ZERO, h), h, ZERO, h);
        return from_list(ps, e, d, rise);
    }
    let top = e.add(d);
    let per = slow.between(ts, top);
    let tr = slow.between(ZERO, ts);
    let x = joined(&per, top, &fast.between(ZERO, enough), enough, ZERO, top);
    let y = joined(&tr, ts, &fast.between(tq, top), top, ZERO, top);
    let empty = tr.iter().all(|p| p.at.inf() && p.r.inf());
    let k = if empty {
        0
    } else {
        let (p, q) = (from_on(&x, e), from_on(&y, e));
        lead_of(&p, &q, top, if rq.inf() { INF } else { d.mul(rq.sub(rs)) })
    };
    let rank = e.add(Fraction::int(k).mul(d));
    let h = rank.add(d);
    let cf = fast.rise_over(d);
    let x = extended(x, e, d, slow.rise_over(d), h);
    let y = extended(y, e, d, if cf.inf() { ZERO } else { cf }, h);
    let mut out = low(&x, &y, h);
    if tq.n > 0 {
        let end = ts.add(tq);
        let mut z = joined(&tr, ts, &fast.between(ZERO, tq), tq, ZERO, end);
        z.push(Piece::off(end, INF));
        out = low(&out, &z, h);
    }
    from_list(out, rank, d, rise)
}

fn from_on(ps: &[Piece], e: Fraction) -> Vec<Piece> {
    let i = ps.partition_point(|p| p.x <= e) - 1;
    let mut v = ps[i..].to_vec();
    if v[0].x < e {
        v[0].at = v[0].line(e);
        v[0].x = e;
    }
    v
}

fn lead_of(p: &[Piece], q: &[Piece], hi: Fraction, delta: Fraction) -> i128 {
    crate::ops::lead_gap(p, q, hi, delta)
}

/// A list on [0, e + d), periodic from e on, up to h.
fn extended(ps: Vec<Piece>, e: Fraction, d: Fraction, c: Fraction, h: Fraction) -> Vec<Piece> {
    if h <= e.add(d) {
        return ps;
    }
    let base = from_on(&ps, e);
    let mut out: Vec<Piece> = ps;
    let mut n = 1;
    loop {
        let (x, v) = (Fraction::int(n).mul(d), Fraction::int(n).mul(c));
        for p in &base {
            let q = p.moved(x, v);
            if q.x >= h {
                return out;
            }
            emit(&mut out, q.x, q.at, q.k, q.r);
        }
        n += 1;
    }
}

fn negated(p: &Piece) -> Piece {
    Piece::new(
        p.x,
        if p.at.inf() { INF } else { p.at.neg() },
        if p.r.inf() { INF } else { p.k.neg() },
        if p.r.inf() { INF } else { p.r.neg() },
    )
}

pub fn deconvolve(f: &Curve, g: &Curve) -> Curve {
    if f.rate() > g.rate() {
        return nowhere();
    }
    let d = common(f, g);
    let own = f.period().unwrap_or(d);
    let rank = f.t();
    let far = rank.max(g.t()).add(d);
    let h = rank.add(own);
    if !f.finite() {
        // an accepted flow's curve is finite, or is infinite everywhere after an infinite delay
        return nowhere();
    }
    let fs: Vec<Piece> = f.between(ZERO, h.add(far)).iter().map(negated).collect();
    let gs = mirrored(&g.between(ZERO, far), far);
    let ps = joined(&fs, h.add(far), &gs, ZERO, ZERO, h).iter().map(negated).collect();
    from_list(ps, rank, own, f.rise_over(own))
}

// --- closure

fn point_closure(a: Fraction, v: Fraction) -> Curve {
    if a.zero() {
        return normal(vec![Piece::off(ZERO, v)], ZERO, Tail::Inf);
    }
    normal(vec![Piece::off(ZERO, INF), Piece::off(a, v)], a, Tail::Per(a, v))
}

fn chosen(a: Fraction, b: Fraction, k: Fraction, t: Fraction) -> Option<Fraction> {
    let low = (t.floor_div(b) + 1).max(1);
    let high = t.ceil_div(a) - 1;
    if low > high {
        None
    } else {
        Some(Fraction::int(if k.n >= 0 { low } else { high }))
    }
}

fn segment_closure(a: Fraction, b: Option<Fraction>, k: Fraction, r: Fraction) -> Curve {
    let two = Fraction::int(2);
    let off = Piece::off(ZERO, INF);
    let Some(b) = b else {
        if a.zero() {
            return normal(vec![Piece::new(ZERO, INF, k, r)], ZERO, Tail::Aff);
        }
        if k.n >= 0 {
            return normal(vec![off, Piece::new(a, INF, k, r)], a, Tail::Aff);
        }
        let a2 = two.mul(a);
        return normal(
            vec![off, Piece::new(a, INF, k, r), Piece::new(a2, k.add(r.mul(a2)), two.mul(k), r)],
            a2,
            Tail::Per(a, k.add(r.mul(a))),
        );
    };
    if a.zero() {
        let rb = r.mul(b);
        return normal(
            vec![Piece::new(ZERO, INF, k, r), Piece::new(b, two.mul(k).add(rb), two.mul(k), r)],
            b,
            Tail::Per(b, k.add(rb)),
        );
    }
    let n0 = a.floor_div(b.sub(a)) + 1;
    let mut pts = vec![ZERO];
    for n in 1..n0 + 3 {
        pts.push(Fraction::int(n).mul(a));
        pts.push(Fraction::int(n).mul(b));
    }
    pts.sort();
    pts.dedup();
    let (period, rank) = if k.n >= 0 { (b, Fraction::int(n0).mul(b)) } else { (a, Fraction::int(n0 + 1).mul(a)) };
    let end = rank.add(period);
    pts.retain(|p| *p < end);
    let mut ps = Vec::new();
    for (i, &x) in pts.iter().enumerate() {
        let nxt = if i + 1 < pts.len() { pts[i + 1] } else { end };
        let n = chosen(a, b, k, x);
        let m = chosen(a, b, k, x.add(nxt).div(two));
        ps.push(Piece::new(
            x,
            n.map_or(INF, |n| n.mul(k).add(r.mul(x))),
            m.map_or(INF, |m| m.mul(k)),
            if m.is_some() { r } else { INF },
        ));
    }
    normal(ps, rank, Tail::Per(period, k.add(r.mul(period))))
}

pub fn close(f: &Curve) -> Curve {
    let origin = normal(vec![Piece::off(ZERO, ZERO)], ZERO, Tail::Inf);
    let mut so_far: Option<Curve> = None;
    let mut add = |c: Curve, periodic: bool| {
        let c = match f.tail {
            Tail::Per(d, v) if periodic => convolve(&c, &normal(vec![Piece::off(ZERO, ZERO)], ZERO, Tail::Per(d, v))),
            _ => c,
        };
        let c = min(&c, &origin);
        so_far = Some(match so_far.take() {
            None => c,
            // both are 0 at 0 and subadditive: where c is nowhere below s, their convolution is s
            Some(s) if min(&s, &c) == s => s,
            Some(s) => convolve(&s, &c),
        });
    };
    for (i, p) in f.ps.iter().enumerate() {
        let (per, last) = match f.tail {
            Tail::Per(d, _) => (p.x >= f.rank, Some(f.rank.add(d))),
            _ => (false, None),
        };
        add(point_closure(p.x, p.at), per);
        let end = if i + 1 < f.ps.len() { Some(f.ps[i + 1].x) } else { last };
        add(segment_closure(p.x, end, p.k, p.r), per);
    }
    let s = so_far.unwrap();
    let mut ps = s.ps.clone();
    ps[0].at = f.value(ZERO);
    if let Tail::Per(d, c) = s.tail {
        if s.rank.zero() {
            ps.extend(s.between(d, d.add(d)).iter().copied());
            return normal(ps, d, Tail::Per(d, c));
        }
    }
    normal(ps, s.rank, s.tail)
}
