//! The operators.
use crate::curve::*;
use crate::frac::*;

/// Goes over the common cells of two piece lists on a stretch that ends at hi:
/// x, next x, f's at and line, g's at and line.
#[inline(always)]
fn both(
    f: &[Piece],
    g: &[Piece],
    hi: Fraction,
    mut each: impl FnMut(Fraction, Fraction, Fraction, &Piece, Fraction, &Piece),
) {
    let (mut i, mut j) = (0, 0);
    let mut x = f[0].x;
    let (mut fa, mut ga) = (f[0].at, g[0].at);
    loop {
        let fn_ = if i + 1 < f.len() { f[i + 1].x } else { hi };
        let gn = if j + 1 < g.len() { g[j + 1].x } else { hi };
        let o = fn_.cmp(&gn);
        let y = if o.is_le() { fn_ } else { gn };
        let last = y >= hi;
        let y = if last { hi } else { y };
        each(x, y, fa, &f[i], ga, &g[j]);
        if last {
            return;
        }
        if o.is_le() {
            i += 1;
            fa = f[i].at;
        } else {
            fa = f[i].line(y);
        }
        if o.is_ge() {
            j += 1;
            ga = g[j].at;
        } else {
            ga = g[j].line(y);
        }
        x = y;
    }
}

fn add_lists(f: &[Piece], g: &[Piece], hi: Fraction) -> Vec<Piece> {
    let mut out = Vec::with_capacity(f.len() + g.len());
    both(f, g, hi, |x, _, fa, p, ga, q| {
        let at = if fa.inf() || ga.inf() { INF } else { fa.add(ga) };
        if p.r.inf() || q.r.inf() {
            emit(&mut out, x, at, INF, INF);
        } else {
            emit(&mut out, x, at, p.k.add(q.k), p.r.add(q.r));
        }
    });
    out
}

pub fn sum(f: &Curve, g: &Curve) -> Curve {
    if f.tail == Tail::Aff && g.tail == Tail::Aff {
        return simple(add_lists(&f.ps, &g.ps, f.rank.max(g.rank).add(ONE)));
    }
    let d = common(f, g);
    let m = f.t().max(g.t());
    let h = m.add(d);
    let ps = add_lists(&f.between(ZERO, h), &g.between(ZERO, h), h);
    let (a, b) = (f.rise_over(d), g.rise_over(d));
    from_list(ps, m, d, if a.inf() || b.inf() { ZERO } else { a.add(b) })
}

pub fn low(f: &[Piece], g: &[Piece], hi: Fraction) -> Vec<Piece> {
    let mut out = Vec::with_capacity(f.len() + g.len() + 4);
    both(f, g, hi, |x, y, fa, p, ga, q| {
        let at = fa.min(ga);
        if p.r.inf() {
            emit(&mut out, x, at, q.k, q.r);
        } else if q.r.inf() {
            emit(&mut out, x, at, p.k, p.r);
        } else if p.r == q.r {
            let k = if p.k <= q.k { p.k } else { q.k };
            emit(&mut out, x, at, k, p.r);
        } else {
            let dk = q.k.sub(p.k);
            let dr = p.r.sub(q.r);
            let up = dr.n > 0;
            // a is the lower one before they cross
            let (a, b) = if up { (p, q) } else { (q, p) };
            let is_past = |t| if up { dr.mul_cmp(t, dk) } else { dr.mul_cmp(t, dk).reverse() };
            if is_past(x).is_ge() {
                emit(&mut out, x, at, b.k, b.r);
            } else if is_past(y).is_le() {
                emit(&mut out, x, at, a.k, a.r);
            } else {
                let z = dk.div(dr);
                emit(&mut out, x, at, a.k, a.r);
                out.push(Piece::new(z, b.line(z), b.k, b.r));
            }
        }
    });
    out
}

/// The larger of 0 and f - g.
fn over_into(out: &mut Vec<Piece>, f: &[Piece], g: &[Piece], hi: Fraction) {
    both(f, g, hi, |x, y, fa, p, ga, q| {
        let at = if ga.inf() || fa <= ga { ZERO } else { fa.sub(ga) };
        if q.r.inf() {
            emit(out, x, at, ZERO, ZERO);
            return;
        }
        let k = p.k.sub(q.k);
        let r = p.r.sub(q.r);
        if r.zero() {
            let k = if k.n > 0 { k } else { ZERO };
            emit(out, x, at, k, ZERO);
            return;
        }
        let up = r.n > 0;
        let (first, last) = (r.mul_cmp(x, k.neg()), r.mul_cmp(y, k.neg()));
        if first.is_ge() && last.is_ge() {
            emit(out, x, at, k, r)
        } else if first.is_le() && last.is_le() {
            emit(out, x, at, ZERO, ZERO)
        } else if up {
            emit(out, x, at, ZERO, ZERO);
            emit(out, k.neg().div(r), ZERO, k, r);
        } else {
            emit(out, x, at, k, r);
            emit(out, k.neg().div(r), ZERO, ZERO, ZERO);
        }
    });
}

enum Gap {
    Nothing,
    Infinite,
    Fin(Fraction),
}

fn sup_gap(f: &[Piece], g: &[Piece], hi: Fraction) -> Gap {
    let mut best: Option<Fraction> = None;
    let mut inf = false;
    both(f, g, hi, |x, y, fa, p, ga, q| {
        let mut put = |v: Fraction| match best {
            Some(b) if b >= v => {}
            _ => best = Some(v),
        };
        if !ga.inf() {
            if fa.inf() {
                inf = true;
            } else {
                put(fa.sub(ga));
            }
        }
        if !q.r.inf() {
            if p.r.inf() {
                inf = true;
            } else {
                let k = p.k.sub(q.k);
                let r = p.r.sub(q.r);
                if r.n > 0 {
                    put(line(k, r, y));
                } else {
                    put(line(k, r, x));
                }
            }
        }
    });
    if inf {
        Gap::Infinite
    } else {
        match best {
            None => Gap::Nothing,
            Some(v) => Gap::Fin(v),
        }
    }
}

fn lead(g: Gap, delta: Fraction) -> i128 {
    match g {
        Gap::Nothing => 0,
        Gap::Infinite => wide(),
        Gap::Fin(v) => {
            if delta.inf() || v.n <= 0 {
                0
            } else {
                v.ceil_div(delta).max(0)
            }
        }
    }
}

fn gap_k(f: &Curve, g: &Curve, m: Fraction, d: Fraction) -> i128 {
    let (a, b) = (f.rate(), g.rate());
    if a == b {
        return 0;
    }
    let (slow, fast, ra, rb) = if a < b { (f, g, a, b) } else { (g, f, b, a) };
    let h = m.add(d);
    let sup = sup_gap(&slow.between(m, h), &fast.between(m, h), h);
    lead(sup, if rb.inf() { INF } else { d.mul(rb.sub(ra)) })
}

fn least_rise(f: &Curve, g: &Curve, d: Fraction) -> Fraction {
    let c = f.rise_over(d).min(g.rise_over(d));
    if c.inf() {
        ZERO
    } else {
        c
    }
}

fn excess(a: Fraction, b: Fraction) -> Fraction {
    if b.inf() || a <= b {
        ZERO
    } else {
        a.sub(b)
    }
}

pub fn min(f: &Curve, g: &Curve) -> Curve {
    let d = common(f, g);
    let m = f.t().max(g.t());
    let k = Fraction::int(gap_k(f, g, m, d));
    let rank = m.add(k.mul(d));
    let h = rank.add(d);
    let ps = low(&f.between(ZERO, h), &g.between(ZERO, h), h);
    from_list(ps, rank, d, least_rise(f, g, d))
}

pub fn pos_diff(f: &Curve, g: &Curve) -> Curve {
    let d = common(f, g);
    let m = f.t().max(g.t());
    let k = Fraction::int(gap_k(f, g, m, d));
    let rank = m.add(k.mul(d));
    let h = rank.add(d);
    let (a, b) = (f.between(ZERO, h), g.between(ZERO, h));
    let mut ps = Vec::with_capacity(a.len() + b.len());
    over_into(&mut ps, &a, &b, h);
    from_list(ps, rank, d, excess(f.rise_over(d), g.rise_over(d)))
}

pub fn pos_minus(f: &Curve, l: Fraction) -> Curve {
    pos_diff(f, &affine(l, ZERO))
}

pub fn scale(f: &Curve, k: Fraction) -> Curve {
    if k.zero() {
        return affine(ZERO, ZERO);
    }
    // scaling keeps the normal form
    let ps = f.ps.iter().map(|p| Piece::new(p.x, p.at.mul(k), p.k.mul(k), p.r.mul(k))).collect();
    let tail = match f.tail {
        Tail::Per(d, c) => Tail::Per(d, c.mul(k)),
        t => t,
    };
    Curve { ps, rank: f.rank, tail }
}

fn sup_of(ps: &[Piece], hi: Fraction) -> Fraction {
    let mut best = ps[0].at;
    for (i, p) in ps.iter().enumerate() {
        let y = if i + 1 < ps.len() { ps[i + 1].x } else { hi };
        best = best.max(p.at).max(if p.r.n > 0 { p.line(y) } else { p.line(p.x) });
    }
    best
}

pub fn run_sup(f: &Curve) -> Curve {
    let d = f.period().unwrap_or(ONE);
    let c = f.rise_over(d);
    let t = f.t();
    let k = if c.zero() || t.zero() {
        0
    } else {
        sup_of(&f.between(ZERO, t), t).sub(sup_of(&f.between(t, t.add(d)), t.add(d))).ceil_div(c).max(0)
    };
    let h = t.add(Fraction::int(k + 2).mul(d));
    let ps = f.between(ZERO, h);
    let mut out = Vec::with_capacity(ps.len() + 4);
    let mut top = ps[0].at;
    for (i, p) in ps.iter().enumerate() {
        let y = if i + 1 < ps.len() { ps[i + 1].x } else { h };
        if p.at > top {
            top = p.at;
        }
        let (x, k, r) = (p.x, p.k, p.r);
        let a = p.line(x);
        if r.n <= 0 {
            let here = top;
            top = top.max(a);
            emit(&mut out, x, here, top, ZERO);
            continue;
        }
        let b = p.line(y);
        if a >= top {
            emit(&mut out, x, top, k, r);
            top = b;
        } else if b <= top {
            emit(&mut out, x, top, top, ZERO);
        } else {
            let z = top.sub(k).div(r);
            emit(&mut out, x, top, top, ZERO);
            emit(&mut out, z, top, k, r);
            top = b;
        }
    }
    drop(ps);
    from_list(out, h.sub(d), d, c)
}

pub fn shift(f: &Curve, x: Fraction) -> Curve {
    if x.inf() {
        return nowhere();
    }
    if x.zero() {
        return f.clone();
    }
    let d = f.period().unwrap_or(ONE);
    let rank = f.t().sub(x).max(ZERO);
    let h = rank.add(d);
    let back = x.neg();
    let ps = f.between(x, x.add(h)).iter().map(|p| p.moved(back, ZERO)).collect();
    let c = f.rise_over(d);
    from_list(ps, rank, d, if c.inf() { ZERO } else { c })
}

fn moved_list(ps: &[Piece], x: Fraction) -> Vec<Piece> {
    ps.iter().map(|p| p.moved(x, ZERO)).collect()
}

pub fn fifo_left(beta: &Curve, cross: &Curve, theta: Fraction) -> Curve {
    if theta.inf() {
        return affine(ZERO, ZERO);
    }
    let d = common(beta, cross);
    let m = beta.t().max(cross.t().add(theta));
    let (ra, rb) = (beta.rate(), cross.rate());
    let k = if ra == rb {
        0
    } else {
        let h = m.add(d);
        let lo = m.sub(theta);
        let b = beta.between(m, h);
        let c = cross.between(lo, lo.add(d));
        let c = moved_list(&c, theta);
        if ra < rb {
            lead(sup_gap(&b, &c, h), if rb.inf() { INF } else { d.mul(rb.sub(ra)) })
        } else {
            lead(sup_gap(&c, &b, h), d.mul(ra.sub(rb)))
        }
    };
    let rank = m.add(Fraction::int(k + 1).mul(d));
    let h = rank.add(d);
    let mut out;
    {
        let b = beta.between(theta, h);
        let c = cross.between(ZERO, h.sub(theta));
        let c = if theta.zero() { c } else { moved_list(&c, theta).into() };
        out = Vec::with_capacity(b.len() + c.len() + 2);
        if theta.n > 0 {
            out.push(Piece::new(ZERO, ZERO, ZERO, ZERO));
        }
        let n = out.len();
        over_into(&mut out, &b, &c, h);
        // 0 at theta too
        if out.len() == n || out[n].x != theta {
            // the first piece was one with the zero before
        } else {
            out[n].at = ZERO;
            if n == 1 && out[1].r.zero() && out[1].k.zero() {
                out.remove(1);
            }
        }
    }
    let c = excess(beta.rise_over(d), cross.rise_over(d));
    // the infimum from each time on: first over one period, then from the right
    let start = out.partition_point(|p| p.x <= rank) - 1;
    let mut least = {
        let mut v: Option<Fraction> = None;
        for i in start..out.len() {
            let p = &out[i];
            let y = if i + 1 < out.len() { out[i + 1].x } else { h };
            let x = p.x.max(rank);
            let here = if p.x >= rank { p.at } else { p.line(x) };
            let w = here.min(if p.r.n > 0 { p.line(x) } else { p.line(y) });
            v = Some(match v {
                Some(u) if u <= w => u,
                _ => w,
            });
        }
        v.unwrap().add(c)
    };
    let mut rev: Vec<Piece> = Vec::with_capacity(out.len() + 4);
    for i in (0..out.len()).rev() {
        let p = out[i];
        let y = if i + 1 < out.len() { out[i + 1].x } else { h };
        let b = p.line(y);
        let q;
        if p.r.n <= 0 {
            let m = b.min(least);
            q = Piece::new(p.x, m, m, ZERO);
            least = m;
        } else {
            let a = p.line(p.x);
            if b <= least {
                q = Piece::new(p.x, a, p.k, p.r);
                least = a;
            } else if a >= least {
                q = Piece::new(p.x, least, least, ZERO);
            } else {
                let z = least.sub(p.k).div(p.r);
                rev.push(Piece::new(z, least, least, ZERO));
                q = Piece::new(p.x, a, p.k, p.r);
                least = a;
            }
        }
        let mut q = q;
        if p.at < least {
            least = p.at;
        }
        q.at = least;
        rev.push(q);
    }
    out.clear();
    for p in rev.iter().rev() {
        emit(&mut out, p.x, p.at, p.k, p.r);
    }
    from_list(out, rank, d, c)
}

pub fn vertical(f: &Curve, g: &Curve) -> Fraction {
    if !f.finite() || f.rate() > g.rate() {
        return INF;
    }
    let h = f.t().max(g.t()).add(common(f, g));
    match sup_gap(&f.between(ZERO, h), &g.between(ZERO, h), h) {
        Gap::Fin(v) => v,
        _ => wide(),
    }
}

pub fn horizontal(f: &Curve, g: &Curve) -> Fraction {
    if !f.finite() {
        return INF;
    }
    let (rf, rg) = (f.rate(), g.rate());
    if rf > rg {
        return INF;
    }
    let t = f.t();
    let (ft, gt) = (f.value(t), g.value(g.t()));
    if rf.zero() && rg.zero() && ft > gt {
        return INF;
    }
    let d = common(f, g);
    let c = f.rise_over(d);
    let j = if c.n > 0 { (gt.sub(ft).floor_div(c) + 1).max(0) } else { 0 };
    let last = t.add(Fraction::int(j + 1).mul(d));
    // from when g is as high as f is in the end it is not behind
    gap(f, last.min(Walk::new(g).reach(f.value(last))), g)
}

/// The pieces of a curve one after the other, those of later periods made as they come.
struct Cursor<'a> {
    curve: &'a Curve,
    base: usize,
    i: usize,
    later: Fraction,
    higher: Fraction,
    piece: Piece,
}

impl<'a> Cursor<'a> {
    fn new(curve: &'a Curve) -> Cursor<'a> {
        let base = match curve.tail {
            Tail::Per(..) => from(&curve.ps, curve.rank),
            _ => curve.ps.len(),
        };
        Cursor { curve, base, i: 0, later: ZERO, higher: ZERO, piece: curve.ps[0] }
    }
    fn end(&self) -> Fraction {
        match (self.curve.ps.get(self.i + 1), self.curve.tail) {
            (Some(next), _) => next.x.add(self.later),
            (None, Tail::Per(d, _)) => self.curve.rank.add(d).add(self.later),
            _ => INF,
        }
    }
    fn step(&mut self) {
        self.i += 1;
        if self.i == self.curve.ps.len() {
            self.i = self.base;
            self.skip(1);
        }
        self.moved();
    }
    fn skip(&mut self, periods: i128) {
        if let Tail::Per(d, c) = self.curve.tail {
            self.later = self.later.add(Fraction::int(periods).mul(d));
            self.higher = self.higher.add(Fraction::int(periods).mul(c));
        }
    }
    fn moved(&mut self) {
        let p = &self.curve.ps[self.i];
        self.piece = if self.later.zero() { *p } else { p.moved(self.later, self.higher) };
    }
}

/// A walk up a rising curve.
struct Walk<'a> {
    on: Cursor<'a>,
    rise: Fraction,
    state: u8,
    val: Fraction,
}

impl<'a> Walk<'a> {
    fn new(g: &'a Curve) -> Walk<'a> {
        let rise = match g.tail {
            Tail::Per(_, c) => c,
            _ => ZERO,
        };
        Walk { on: Cursor::new(g), rise, state: 0, val: g.ps[0].at }
    }
    /// A step towards v; whole periods that stay below it are passed over.
    fn step(&mut self, v: Fraction) {
        if self.state == 2 {
            self.on.step();
            self.state = 0;
            if self.on.i == self.on.base && self.rise.n > 0 && self.on.piece.at.add(self.rise) < v {
                self.on.skip(v.sub(self.on.piece.at).ceil_div(self.rise) - 1);
                self.on.moved();
            }
        } else {
            self.state += 1;
        }
        let p = &self.on.piece;
        self.val = match self.state {
            0 => p.at,
            1 => p.line(p.x),
            _ => {
                if p.r.zero() {
                    p.k
                } else {
                    let end = self.on.end();
                    if end.inf() {
                        INF
                    } else {
                        p.line(end)
                    }
                }
            }
        };
    }
    /// The least time with a value at least v.
    fn reach(&mut self, v: Fraction) -> Fraction {
        while self.val < v {
            self.step(v);
        }
        self.time(v)
    }
    /// The least time with a value above v.
    fn pass(&mut self, v: Fraction) -> Fraction {
        while self.val <= v {
            self.step(v);
        }
        self.time(v)
    }
    fn time(&self, v: Fraction) -> Fraction {
        let p = &self.on.piece;
        if self.state == 2 {
            v.sub(p.k).div(p.r)
        } else {
            p.x
        }
    }
}

fn gap(f: &Curve, t1: Fraction, g: &Curve) -> Fraction {
    let mut at = Walk::new(g);
    let mut past = Walk::new(g);
    let mut best = ZERO;
    let mut on = Cursor::new(f);
    while on.piece.x < t1 {
        let (p, y) = (on.piece, on.end().min(t1));
        if y < t1 {
            on.step();
        }
        best = best.max(at.reach(p.at).sub(p.x));
        if p.r.zero() {
            if p.k != p.at {
                best = best.max(at.reach(p.k).sub(p.x));
            }
        } else {
            let a = p.line(p.x);
            let b = p.line(y);
            best = best.max(past.pass(a).sub(p.x));
            at.reach(a);
            // the values of g between
            loop {
                let w = past.val;
                if w >= b {
                    break;
                }
                let t = w.sub(p.k).div(p.r);
                best = best.max(at.reach(w).sub(t)).max(past.pass(w).sub(t));
            }
            best = best.max(at.reach(b).sub(y));
        }
        if y == t1 {
            break;
        }
    }
    best
}

pub fn lead_gap(p: &[Piece], q: &[Piece], hi: Fraction, delta: Fraction) -> i128 {
    lead(sup_gap(p, q, hi), delta)
}
