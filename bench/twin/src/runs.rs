//! The reports on runs: `simulate` and `check`.
use crate::check::Checked;
use crate::frac::*;
use crate::net::Net;
use crate::promises::{first_breach, keeps, Breach};
use crate::simulate::{simulate, Seen};
use crate::trace::{recorded, trace};
use crate::Row;
use std::fmt::Write;

fn malformed() -> ! {
    println!("twin: malformed");
    std::process::exit(1)
}

fn head(net: &Net, out: &mut String) {
    let _ = writeln!(out, "servers {} flows {}", net.servers.len(), net.flows.len());
}

fn body(net: &Net, seen: &Seen, rows: &[Vec<Row>], flows: &[[Fraction; 3]], out: &mut String) {
    let _ = write!(out, "run packets {} end ", seen.packets);
    seen.end.show(out);
    out.push('\n');
    for (i, flow) in net.flows.iter().enumerate() {
        let _ = write!(out, "worst {} ", flow.name);
        seen.worst[i].show(out);
        out.push_str(" bound ");
        flows[i][2].show(out);
        out.push('\n');
    }
    for (i, server) in net.servers.iter().enumerate() {
        for (q, row) in rows[i].iter().enumerate() {
            let _ = write!(out, "peak {} {} {} bound ", server.name, q, seen.peaks[i][q]);
            row.backlog.show(out);
            out.push('\n');
        }
    }
}

/// Where a service is broken the times of the breach are not told: then there is no report.
fn services_kept(net: &Net, seen: &Seen) {
    let is_kept = |(i, own): (usize, &Vec<_>)| own.iter().all(|stretch| keeps(stretch, &net.servers[i].service));
    if !seen.stretches.iter().enumerate().all(is_kept) {
        eprintln!("twin: a service is broken");
        std::process::exit(3)
    }
}

fn breach_line(net: &Net, breach: Option<Breach>, out: &mut String) -> i32 {
    let _ = match breach {
        None => return 0,
        Some((_, 0, flow, packet, _)) => writeln!(out, "breach size {} {packet}", net.flows[flow].name),
        Some((_, _, flow, last, first)) => writeln!(out, "breach arrival {} {first} {last}", net.flows[flow].name),
    };
    9
}

pub fn simulated(net: &Net, text: &str, bounds: impl Fn() -> (Vec<Vec<Row>>, Vec<[Fraction; 3]>)) -> (String, i32) {
    let Some((packets, stalls)) = trace(text, net) else { malformed() };
    let (rows, flows) = bounds();
    let seen = simulate(net, &packets, &stalls);
    services_kept(net, &seen);
    let mut out = String::new();
    head(net, &mut out);
    body(net, &seen, &rows, &flows, &mut out);
    let status = breach_line(net, first_breach(net, &packets), &mut out);
    if status == 0 {
        out.push_str("breach none\n");
    }
    (out, status)
}

pub fn checked(net: &Net, text: &str, bounds: impl Fn() -> (Vec<Vec<Row>>, Vec<[Fraction; 3]>)) -> (String, i32) {
    let Some((steps, end)) = recorded(text, net) else { malformed() };
    let (rows, flows) = bounds();
    let mut run = Checked::new(net, end);
    let first = steps.iter().enumerate().find_map(|(i, step)| run.step(step).err().map(|law| (i + 1, law)));
    let first = first.or_else(|| run.ended().err().map(|law| (steps.len() + 1, law)));
    let mut out = String::new();
    head(net, &mut out);
    if let Some((row, law)) = first {
        let _ = write!(out, "run packets {} end ", steps.iter().filter(|step| step.is_enter()).count());
        end.show(&mut out);
        let _ = writeln!(out, "\nverdict unlawful row {row} L{law}");
        return (out, 9);
    }
    let seen = run.seen();
    services_kept(net, &seen);
    body(net, &seen, &rows, &flows, &mut out);
    let breach = first_breach(net, &run.packets);
    out.push_str("verdict ");
    let status = breach_line(net, breach, &mut out);
    if status == 0 {
        out.push_str("admissible\n");
    }
    (out, status)
}
