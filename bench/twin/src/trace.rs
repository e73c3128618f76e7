//! Traces and recorded runs: tables without faults.
use crate::frac::*;
use crate::net::{frac, Net};
use std::collections::HashMap;

pub struct Packet {
    pub flow: u32,
    pub at: Fraction,
    pub bits: i128,
}
pub struct Stall {
    pub server: u32,
    pub from: Fraction,
    pub to: Fraction,
}
pub enum Step {
    Enter { at: Fraction, flow: u32, bits: i128 },
    Reach { at: Fraction, server: u32, packet: u32 },
    Work { server: u32, packet: u32, from: Fraction, to: Fraction, bits: Fraction },
    Leave { at: Fraction, server: u32, packet: u32 },
    Visit { at: Fraction, server: u32, queue: u32 },
}

impl Step {
    pub fn is_enter(&self) -> bool {
        matches!(self, Step::Enter { .. })
    }
}

struct Names<'a> {
    servers: HashMap<&'a str, u32>,
    flows: HashMap<&'a str, u32>,
}

fn names(net: &Net) -> Names<'_> {
    Names {
        servers: net.servers.iter().enumerate().map(|(i, s)| (&*s.name, i as u32)).collect(),
        flows: net.flows.iter().enumerate().map(|(i, f)| (&*f.name, i as u32)).collect(),
    }
}

fn rows(text: &str) -> impl Iterator<Item = (&str, [&str; 5], usize)> {
    text.lines().map(|line| line.strip_suffix('\r').unwrap_or(line)).filter(|line| !line.is_empty()).map(|line| {
        let mut fields = line.split(',');
        let word = fields.next().unwrap_or("");
        let (mut rest, mut count) = ([""; 5], 0);
        for field in fields {
            if count < 5 {
                rest[count] = field;
            }
            count += 1;
        }
        (word, rest, count)
    })
}

fn time(field: &str) -> Option<Fraction> {
    frac(field).filter(|t| t.n >= 0)
}

fn bits(field: &str) -> Option<i128> {
    field.parse().ok().filter(|bits| (1..=1 << 24).contains(bits))
}

pub fn trace(text: &str, net: &Net) -> Option<(Vec<Packet>, Vec<Stall>)> {
    let names = names(net);
    let (mut packets, mut stalls) = (Vec::<Packet>::new(), Vec::new());
    for (word, f, count) in rows(text) {
        match (word, count) {
            ("packet", 3) => {
                let packet = Packet { at: time(f[0])?, flow: *names.flows.get(f[1])?, bits: bits(f[2])? };
                if packets.last().is_some_and(|before| before.at > packet.at) {
                    return None;
                }
                packets.push(packet);
            }
            ("stall", 3) => {
                let stall = Stall { server: *names.servers.get(f[0])?, from: time(f[1])?, to: time(f[2])? };
                if stall.from >= stall.to {
                    return None;
                }
                stalls.push(stall);
            }
            _ => return None,
        }
    }
    Some((packets, stalls))
}

/// The steps of a recorded run, and its end.
pub fn recorded(text: &str, net: &Net) -> Option<(Vec<Step>, Fraction)> {
    let names = names(net);
    let (mut steps, mut end) = (Vec::new(), None);
    for (word, f, count) in rows(text) {
        if end.is_some() {
            return None;
        }
        let server = |field: &str| names.servers.get(field).copied();
        let number = |field: &str| field.parse::<u32>().ok();
        steps.push(match (word, count) {
            ("enter", 3) => Step::Enter { at: time(f[0])?, flow: *names.flows.get(f[1])?, bits: bits(f[2])? },
            ("reach", 3) => Step::Reach { at: time(f[0])?, server: server(f[1])?, packet: number(f[2])? },
            ("work", 5) => Step::Work {
                server: server(f[0])?,
                packet: number(f[1])?,
                from: time(f[2])?,
                to: time(f[3])?,
                bits: frac(f[4])?,
            },
            ("leave", 3) => Step::Leave { at: time(f[0])?, server: server(f[1])?, packet: number(f[2])? },
            ("visit", 3) => Step::Visit { at: time(f[0])?, server: server(f[1])?, queue: number(f[2])? },
            ("end", 1) => {
                end = Some(time(f[0])?);
                continue;
            }
            _ => return None,
        });
    }
    Some((steps, end?))
}
