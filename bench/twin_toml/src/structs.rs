//! The network file as structs that serde fills. A curve is one struct with the keys of all its kinds, since an enum by `kind` would have each entry
//! kept until that is known, which takes longer.

use crate::frac::Fraction;
use crate::net::frac;
use serde::de::{Error, Visitor};
use serde::{Deserialize, Deserializer};
use std::fmt;

struct Number(Fraction);

struct NumberReader;

impl Visitor<'_> for NumberReader {
    type Value = Number;
    fn expecting(&self, to: &mut fmt::Formatter) -> fmt::Result {
        to.write_str("a number")
    }
    fn visit_i64<E: Error>(self, number: i64) -> Result<Number, E> {
        Ok(Number(Fraction::int(number as i128)))
    }
    fn visit_str<E: Error>(self, text: &str) -> Result<Number, E> {
        frac(text).map(Number).ok_or_else(|| E::custom("no number"))
    }
}

impl<'a> Deserialize<'a> for Number {
    fn deserialize<D: Deserializer<'a>>(from: D) -> Result<Number, D::Error> {
        from.deserialize_any(NumberReader)
    }
}

#[derive(Deserialize)]
#[serde(deny_unknown_fields)]
struct Network<'a> {
    version: Option<u32>,
    #[serde(borrow, default)]
    server: Vec<Server<'a>>,
    #[serde(borrow, default)]
    flow: Vec<Flow<'a>>,
}

#[derive(Deserialize)]
#[serde(deny_unknown_fields)]
struct Server<'a> {
    name: &'a str,
    rate: Number,
    #[serde(borrow)]
    service: Option<Service<'a>>,
    link: Option<Number>,
    discipline: Option<&'a str>,
    queues: Option<u32>,
    quanta: Option<Vec<u32>>,
}

#[derive(Deserialize)]
#[serde(deny_unknown_fields)]
struct Service<'a> {
    kind: &'a str,
    latency: Option<Number>,
    cycle: Option<Number>,
    slot: Option<Number>,
    piece: Option<Vec<Piece>>,
    tail: Option<Tail>,
}

#[derive(Deserialize)]
#[serde(deny_unknown_fields)]
struct Flow<'a> {
    name: &'a str,
    packet: u32,
    #[serde(borrow)]
    arrival: Arrival<'a>,
    #[serde(borrow)]
    path: Vec<&'a str>,
}

#[derive(Deserialize)]
#[serde(deny_unknown_fields)]
struct Arrival<'a> {
    kind: &'a str,
    burst: Option<Number>,
    rate: Option<Number>,
    period: Option<Number>,
    jitter: Option<Number>,
    piece: Option<Vec<Piece>>,
    tail: Option<Tail>,
    close: Option<bool>,
}

#[derive(Deserialize)]
#[serde(deny_unknown_fields)]
struct Piece {
    x: Number,
    at: Number,
    after: Option<Number>,
    slope: Option<Number>,
}

#[derive(Deserialize)]
#[serde(deny_unknown_fields)]
struct Tail {
    rank: Number,
    period: Number,
    rise: Number,
}

/// How many servers and flows a file has.
pub fn counts(text: &str) -> Option<String> {
    let network: Network = toml::from_str(text).ok()?;
    let told = format!("servers {} flows {}", network.server.len(), network.flow.len());
    std::mem::forget(network);
    Some(told)
}
