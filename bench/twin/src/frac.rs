//! Exact fractions in i128, with fast paths for whole numbers and for 64 bits. INF is 1/0.
use std::cmp::Ordering;

#[derive(Clone, Copy, PartialEq, Eq, Debug)]
pub struct Fraction {
    pub n: i128,
    pub d: i128,
}

pub const INF: Fraction = Fraction { n: 1, d: 0 };
pub const ZERO: Fraction = Fraction { n: 0, d: 1 };
pub const ONE: Fraction = Fraction { n: 1, d: 1 };

#[cold]
#[inline(never)]
pub fn wide() -> ! {
    eprintln!("twin: too wide");
    std::process::exit(6)
}

#[inline(always)]
fn fits(n: i128) -> bool {
    n as i64 as i128 == n
}

/// Binary gcd of 64 bits.
#[inline]
fn gcd64(mut a: u64, mut b: u64) -> u64 {
    if a == 0 {
        return b;
    }
    if b == 0 {
        return a;
    }
    let za = a.trailing_zeros();
    let zb = b.trailing_zeros();
    let sh = za.min(zb);
    a >>= za;
    b >>= zb;
    while a != b {
        let (lo, hi) = if a < b { (a, b) } else { (b, a) };
        let diff = hi - lo;
        b = lo;
        a = diff >> diff.trailing_zeros();
    }
    a << sh
}

#[inline]
pub fn gcd(a: u128, b: u128) -> u128 {
    if a == 1 || b == 1 {
        return 1;
    }
    if (a | b) >> 64 == 0 {
        return gcd64(a as u64, b as u64) as u128;
    }
    gcd_long(a, b)
}

#[inline(never)]
fn gcd_long(mut a: u128, mut b: u128) -> u128 {
    while b >> 64 != 0 {
        let r = a % b;
        a = b;
        b = r;
    }
    if b == 0 {
        return a;
    }
    let r = if a >> 64 == 0 { (a as u64 % b as u64) as u128 } else { a % b };
    gcd64(b as u64, r as u64) as u128
}

#[inline(always)]
fn quot(a: i128, b: i128) -> i128 {
    if b == 1 {
        a
    } else if fits(a) && fits(b) {
        (a as i64).wrapping_div(b as i64) as i128
    } else {
        a / b
    }
}

#[inline(always)]
fn sum(a: i128, b: i128) -> i128 {
    match a.checked_add(b) {
        Some(v) => v,
        None => wide(),
    }
}

#[inline(always)]
fn prod(a: i128, b: i128) -> i128 {
    if fits(a) && fits(b) {
        return (a as i64 as i128) * (b as i64 as i128);
    }
    match a.checked_mul(b) {
        Some(v) => v,
        None => wide(),
    }
}

impl Fraction {
    #[inline(always)]
    pub fn int(n: i128) -> Fraction {
        Fraction { n, d: 1 }
    }
    pub fn new(n: i128, d: i128) -> Fraction {
        debug_assert!(d != 0);
        let g = gcd(n.unsigned_abs(), d.unsigned_abs()) as i128;
        let (n, d) = (quot(n, g), quot(d, g));
        if d < 0 {
            Fraction { n: -n, d: -d }
        } else {
            Fraction { n, d }
        }
    }
    #[inline(always)]
    pub fn inf(self) -> bool {
        self.d == 0
    }
    #[inline(always)]
    pub fn neg(self) -> Fraction {
        Fraction { n: -self.n, d: self.d }
    }
    #[inline(always)]
    pub fn zero(self) -> bool {
        self.n == 0
    }
    /// Both finite.
    #[inline(always)]
    pub fn add(self, o: Fraction) -> Fraction {
        if self.d == 1 && o.d == 1 {
            return Fraction { n: sum(self.n, o.n), d: 1 };
        }
        self.add_slow(o)
    }
    #[inline(never)]
    fn add_slow(self, o: Fraction) -> Fraction {
        if self.d == o.d {
            let n = sum(self.n, o.n);
            let g = gcd(n.unsigned_abs(), self.d as u128) as i128;
            return Fraction { n: quot(n, g), d: quot(self.d, g) };
        }
        let g = gcd(self.d as u128, o.d as u128) as i128;
        if g == 1 {
            return Fraction { n: sum(prod(self.n, o.d), prod(o.n, self.d)), d: prod(self.d, o.d) };
        }
        let (p, q) = (quot(self.d, g), quot(o.d, g));
        let n = sum(prod(self.n, q), prod(o.n, p));
        // what n has in common with the denominator divides g
        let h = gcd(n.unsigned_abs(), g as u128) as i128;
        Fraction { n: quot(n, h), d: prod(p, quot(o.d, h)) }
    }
    #[inline(always)]
    pub fn sub(self, o: Fraction) -> Fraction {
        self.add(o.neg())
    }
    #[inline(always)]
    pub fn mul(self, o: Fraction) -> Fraction {
        if self.d == 1 && o.d == 1 {
            return Fraction { n: prod(self.n, o.n), d: 1 };
        }
        self.mul_slow(o)
    }
    #[inline(never)]
    fn mul_slow(self, o: Fraction) -> Fraction {
        let g = gcd(self.n.unsigned_abs(), o.d as u128) as i128;
        let h = gcd(o.n.unsigned_abs(), self.d as u128) as i128;
        Fraction { n: prod(quot(self.n, g), quot(o.n, h)), d: prod(quot(self.d, h), quot(o.d, g)) }
    }
    #[inline(never)]
    pub fn div(self, o: Fraction) -> Fraction {
        let o = if o.n < 0 { Fraction { n: -o.d, d: -o.n } } else { Fraction { n: o.d, d: o.n } };
        self.mul(o)
    }
    #[inline]
    pub fn floor(self) -> i128 {
        if self.d == 1 {
            return self.n;
        }
        if fits(self.n) && fits(self.d) {
            return (self.n as i64).div_euclid(self.d as i64) as i128;
        }
        self.n.div_euclid(self.d)
    }
    /// The whole part of the quotient, of which nothing is reduced; the divisor is above 0.
    pub fn floor_div(self, o: Fraction) -> i128 {
        if self.d == o.d {
            return Fraction { n: self.n, d: o.n }.floor();
        }
        match (self.n.checked_mul(o.d), self.d.checked_mul(o.n)) {
            (Some(n), Some(d)) => Fraction { n, d }.floor(),
            _ => self.div(o).floor(),
        }
    }
    pub fn ceil_div(self, o: Fraction) -> i128 {
        -self.neg().floor_div(o)
    }
    /// The product with t, beside k.
    #[inline(always)]
    pub fn mul_cmp(self, t: Fraction, k: Fraction) -> Ordering {
        if self.d == 1 && t.d == 1 && k.d == 1 {
            return prod(self.n, t.n).cmp(&k.n);
        }
        self.mul_cmp_slow(t, k)
    }
    #[inline(never)]
    fn mul_cmp_slow(self, t: Fraction, k: Fraction) -> Ordering {
        let product = |a: i128, b: i128, c: i128| a.checked_mul(b).and_then(|ab| ab.checked_mul(c));
        match (product(self.n, t.n, k.d), product(k.n, self.d, t.d)) {
            (Some(a), Some(b)) => a.cmp(&b),
            _ => self.mul(t).cmp(&k),
        }
    }
    pub fn lcm(a: Fraction, b: Fraction) -> Fraction {
        let g = gcd(a.n as u128, b.n as u128) as i128;
        Fraction { n: prod(quot(a.n, g), b.n), d: gcd(a.d as u128, b.d as u128) as i128 }
    }
    pub fn show(self, out: &mut String) {
        use std::fmt::Write;
        if self.inf() {
            out.push_str("unbounded");
        } else if self.d == 1 {
            let _ = write!(out, "{}", self.n);
        } else {
            let _ = write!(out, "{}/{}", self.n, self.d);
        }
    }
}

#[inline(never)]
fn cmp_slow(a: Fraction, b: Fraction) -> Ordering {
    if a.inf() || b.inf() {
        return if a.inf() && b.inf() {
            Ordering::Equal
        } else if a.inf() {
            Ordering::Greater
        } else {
            Ordering::Less
        };
    }
    if fits(a.n) && fits(b.n) && fits(a.d) && fits(b.d) {
        return ((a.n as i64 as i128) * (b.d as i64 as i128)).cmp(&((b.n as i64 as i128) * (a.d as i64 as i128)));
    }
    if (a.n < 0) != (b.n < 0) {
        return a.n.cmp(&b.n);
    }
    if let (Some(x), Some(y)) = (a.n.checked_mul(b.d), b.n.checked_mul(a.d)) {
        return x.cmp(&y);
    }
    let (mut p, mut q, mut r, mut s) = (a.n, a.d, b.n, b.d);
    loop {
        let (x, y) = (p.div_euclid(q), r.div_euclid(s));
        if x != y {
            return x.cmp(&y);
        }
        let (u, v) = (p.rem_euclid(q), r.rem_euclid(s));
        if u == 0 || v == 0 {
            return u.cmp(&v);
        }
        (p, q, r, s) = (s, v, q, u);
    }
}

impl PartialOrd for Fraction {
    #[inline(always)]
    fn partial_cmp(&self, o: &Fraction) -> Option<Ordering> {
        Some(self.cmp(o))
    }
}
impl Ord for Fraction {
    #[inline(always)]
    fn cmp(&self, o: &Fraction) -> Ordering {
        if self.d == o.d && self.d != 0 {
            return self.n.cmp(&o.n);
        }
        cmp_slow(*self, *o)
    }
}
