//! The bounds of netbound in plain Rust, with nothing proved: two tables without faults, the lines of the report.
//! Times are picoseconds, rates grains of 1/1024 bit a second, bursts grains, frames and quanta bits. What bounds
//! arrivals is rounded up, what a port does down.

use std::collections::HashMap;
use std::fmt::Write;
use std::io::Write as _;

const SECOND: u128 = 1_000_000_000_000;
const GRAINS: u128 = 1024;
const BURST_LIMIT: u128 = 1 << 58;
const LINE_RATE_LIMIT: u128 = 1 << 64;
const QUEUE_RATE_LIMIT: u128 = 1 << 50;
const LATE: u128 = 1 << 62;
const JUMP_LIMIT: u128 = 4096;
const DELAY_LIMIT: u128 = 1 << 50;
const NONE: u32 = u32::MAX;

type Line = (u128, u128);

fn up(a: u128, b: u128) -> u128 {
    a.div_ceil(b)
}

// ---- cells
#[derive(Clone, Copy)]
struct Amount {
    top: u128,
    bottom: u128,
}

impl Amount {
    fn parse(text: &str) -> Amount {
        let digits = |text: &str| text.parse::<u128>().expect("a number");
        if let Some((top, bottom)) = text.split_once('/') {
            return Amount { top: digits(top), bottom: digits(bottom) };
        }
        match text.split_once('.') {
            Some((whole, "")) => Amount { top: digits(whole), bottom: 1 },
            Some((whole, after)) => {
                let bottom = 10u128.pow(after.len() as u32);
                Amount { top: digits(whole) * bottom + digits(after), bottom }
            }
            None => Amount { top: if text.is_empty() { 0 } else { digits(text) }, bottom: 1 },
        }
    }

    fn down(self, times: u128) -> u128 {
        self.top * times / self.bottom
    }

    fn up(self, times: u128) -> u128 {
        up(self.top * times, self.bottom)
    }
}

fn rows(text: &str) -> (HashMap<&str, usize>, impl Iterator<Item = Vec<&str>>) {
    let mut lines = text.lines().filter(|line| !line.is_empty());
    let head = lines.next().expect("a head line").split(',').enumerate().map(|(place, name)| (name, place)).collect();
    (head, lines.map(|line| line.split(',').collect()))
}

fn cell<'a>(row: &[&'a str], head: &HashMap<&str, usize>, column: &str) -> &'a str {
    head.get(column).and_then(|&place| row.get(place)).map_or("", |cell| cell.trim())
}

// ---- the network
enum Discipline {
    Fifo,
    Priority(usize),
    Drr(Vec<u128>),
}

struct Port<'a> {
    name: &'a str,
    rate: u128,
    pace: u128,
    latency: u128,
    link: u128,
    discipline: Discipline,
    gate: Option<(u128, u128)>,
}

impl Port<'_> {
    fn queues(&self) -> usize {
        match &self.discipline {
            Discipline::Fifo => 1,
            Discipline::Priority(queues) => *queues,
            Discipline::Drr(quanta) => quanta.len(),
        }
    }

    fn service(&self) -> Line {
        let (mut rate, mut debt) = (self.rate, up(self.rate * self.latency, SECOND));
        if let Some((cycle, slot)) = self.gate {
            rate = rate * slot / cycle;
            debt += up(rate * (cycle - slot), SECOND);
        }
        (rate, debt)
    }
}

struct Node {
    port: u32,
    queue: u8,
    above: u32,
    jitter: Option<u128>,
    bound: Option<u128>,
}

struct Link<'a> {
    name: &'a str,
    frame: u128,
    gap: u128,
    rate: u128,
    nodes: Vec<Node>,
}

struct Branch {
    link: u32,
    node: u32,
    deadline: Option<Amount>,
}

fn checked(line: Line) -> Option<Line> {
    (line.0 < BURST_LIMIT && line.1 < LINE_RATE_LIMIT).then_some(line)
}

fn read_ports(text: &str) -> Vec<Port<'_>> {
    let (head, rows) = rows(text);
    rows.map(|row| {
        let at = |column| cell(&row, &head, column);
        let mut words = at("discipline").split_whitespace();
        let discipline = match words.next().unwrap_or("fifo") {
            "priority" => Discipline::Priority(words.next().unwrap().parse().unwrap()),
            "drr" => Discipline::Drr(words.map(|word| word.parse::<u128>().unwrap() * 8).collect()),
            _ => Discipline::Fifo,
        };
        let gate = at("gate").split_once(' ').map(|(cycle, slot)| {
            (Amount::parse(cycle).up(1_000_000), Amount::parse(slot.trim()).down(1_000_000))
        });
        let rate = Amount::parse(at("rate"));
        Port {
            name: at("name"),
            rate: rate.down(GRAINS * 1_000_000),
            pace: rate.up(GRAINS * 1_000_000),
            latency: Amount::parse(at("latency")).up(1_000_000),
            link: Amount::parse(at("link")).up(1_000_000),
            discipline,
            gate,
        }
    })
    .collect()
}

fn read_links<'a>(text: &'a str, ports: &[Port], overhead: u128) -> (Vec<Link<'a>>, Vec<Branch>) {
    let numbers: HashMap<&str, u32> = ports.iter().enumerate().map(|(number, port)| (port.name, number as u32)).collect();
    let (head, rows) = rows(text);
    let (mut links, mut branches) = (Vec::<Link>::new(), Vec::new());
    let mut known = HashMap::<&str, u32>::new();
    for row in rows {
        let at = |column| cell(&row, &head, column);
        let number = *known.entry(at("name")).or_insert_with(|| {
            let frame = (at("largest_frame").parse::<u128>().unwrap() + overhead) * 8;
            let gap = Amount::parse(at("bag")).down(1_000_000_000);
            let rate = up(frame * GRAINS * SECOND, gap);
            links.push(Link { name: at("name"), frame, gap, rate, nodes: Vec::new() });
            links.len() as u32 - 1
        });
        let link = &mut links[number as usize];
        let jitter = Amount::parse(at("jitter")).up(1_000_000);
        let priority: u8 = at("priority").parse().unwrap_or(0);
        let mut above = NONE;
        for name in at("path").split_whitespace() {
            let port = numbers[name];
            let found = link.nodes.iter().position(|node| node.port == port);
            above = found.unwrap_or_else(|| {
                let queue = if ports[port as usize].queues() == 1 { 0 } else { priority };
                let jitter = if above == NONE { Some(jitter) } else { None };
                link.nodes.push(Node { port, queue, above, jitter, bound: None });
                link.nodes.len() - 1
            }) as u32;
        }
        let deadline = at("deadline");
        branches.push(Branch { link: number, node: above, deadline: (!deadline.is_empty()).then(|| Amount::parse(deadline)) });
    }
    (links, branches)
}

// ---- one port
struct Stair {
    frame: u128,
    gap: u128,
    jitter: u128,
}

struct Part {
    total: Line,
    pace: Option<Line>,
    stairs: Vec<Stair>,
}

struct Queue {
    parts: Option<Vec<Part>>,
    longest: u128,
    rates: u128,
}

/// The time at which a part goes over from its pace to its sum, as a fraction; none where it never does.
fn meeting(part: &Part) -> Option<(u128, u128)> {
    let pace = part.pace?;
    (part.total.1 < pace.1).then(|| (part.total.0.saturating_sub(pace.0), pace.1 - part.total.1))
}

/// The sums of the lines that are the lesser ones just after each time: bursts rise, rates fall.
fn steps(parts: &[&Part]) -> Vec<Line> {
    let mut moves: Vec<((u128, u128), &Part)> = parts.iter().filter_map(|part| meeting(part).map(|time| (time, *part))).collect();
    moves.sort_unstable_by(|(a, _), (b, _)| (a.0 * b.1).cmp(&(b.0 * a.1)));
    let mut now = parts.iter().fold((0, 0), |sum, part| {
        let first = part.pace.unwrap_or(part.total);
        (sum.0 + first.0, sum.1 + first.1)
    });
    let mut lines = Vec::with_capacity(moves.len() + 1);
    for (place, (time, part)) in moves.iter().enumerate() {
        let is_new = if place == 0 { time.0 > 0 } else { moves[place - 1].0 .0 * time.1 != time.0 * moves[place - 1].0 .1 };
        if is_new {
            lines.push(now);
        }
        let pace = part.pace.unwrap();
        now = (now.0 + part.total.0 - pace.0, now.1 + part.total.1 - pace.1);
    }
    lines.push(now);
    lines
}

fn excess(lines: &[Line], rate: u128) -> Option<u128> {
    let place = lines.partition_point(|line| line.1 > rate);
    let line = lines.get(place)?;
    if place == 0 {
        return Some(line.0);
    }
    let before = lines[place - 1];
    let (above, below) = (before.1 - rate, rate - line.1);
    Some(up(before.0 * below + line.0 * above, above + below))
}

fn left(service: Line, others: Option<Vec<&Part>>, packet: u128, found: &mut Vec<Line>) {
    if let Some(parts) = others {
        found.extend(steps(&parts).iter().filter(|line| line.1 < service.0).map(|line| (service.0 - line.1, service.1 + line.0 + packet)));
    }
}

fn joined<'a>(queues: impl Iterator<Item = &'a Queue>) -> Option<Vec<&'a Part>> {
    let mut found = Vec::new();
    for queue in queues {
        found.extend(queue.parts.as_ref()?);
    }
    Some(found)
}

fn services(port: &Port, own: Line, queues: &[Queue], q: usize) -> Vec<Line> {
    let mut found = Vec::new();
    match &port.discipline {
        Discipline::Fifo => found.push(own),
        Discipline::Priority(_) => {
            let packet = queues[q + 1..].iter().map(|queue| queue.longest).max().unwrap_or(0) * GRAINS;
            left(own, joined(queues[..q].iter()), packet, &mut found);
        }
        Discipline::Drr(quanta) => {
            let (quantum, whole, mine) = (quanta[q], quanta.iter().sum::<u128>(), queues[q].longest);
            let all: u128 = queues.iter().map(|queue| queue.longest).sum();
            let owed = (quantum * (all - mine) + (whole - quantum) * (quantum + mine)) * GRAINS;
            found.push((quantum * own.0 / whole, up(quantum * own.1 + owed, whole)));
            let others = queues.iter().enumerate().filter(|(other, _)| *other != q).map(|(_, queue)| queue);
            left(own, joined(others), 0, &mut found);
        }
    }
    found
}

// ---- stairs
/// What a part brings until its next jump, at most its pace.
type Level = (u128, Option<Line>);

/// By how much the levels are above the rate at a time over / under in seconds, rounded up.
fn ahead(levels: &[Level], rate: u128, over: u128, under: u128) -> u128 {
    let height: u128 = levels
        .iter()
        .map(|&(level, pace)| pace.map_or(level * under, |pace| (level * under).min(pace.0 * under + pace.1 * over)))
        .sum();
    up(height.saturating_sub(rate * over), under)
}

/// The greatest excess from the one time to the other: there, and where a part turns from its pace to its level.
fn greatest_between(levels: &[Level], rate: u128, begin: u128, end: u128) -> u128 {
    let mut most = ahead(levels, rate, begin, SECOND).max(ahead(levels, rate, end, SECOND));
    for &(level, pace) in levels {
        if let Some(pace) = pace.filter(|pace| pace.0 < level && pace.1 > 0) {
            let turn = (level - pace.0) * SECOND;
            if begin * pace.1 < turn && turn < end * pace.1 {
                most = most.max(ahead(levels, rate, level - pace.0, pace.1));
            }
        }
    }
    most
}

fn jumps_until(parts: &[Part], end: u128) -> u128 {
    parts.iter().flat_map(|part| &part.stairs).map(|stair| (end + stair.jitter) / stair.gap - stair.jitter / stair.gap).sum()
}

fn walk(parts: &[Part], mut levels: Vec<Level>, rate: u128, end: u128) -> u128 {
    let mut jumps = Vec::new();
    for (place, part) in parts.iter().enumerate() {
        for stair in &part.stairs {
            let numbers = stair.jitter / stair.gap + 1..=(end + stair.jitter) / stair.gap;
            jumps.extend(numbers.map(|number| (number * stair.gap - stair.jitter, place, stair.frame)));
        }
    }
    jumps.sort_unstable_by_key(|jump| jump.0);
    let (mut most, mut begin) = (0, 0);
    for (time, place, frame) in jumps {
        if time > begin {
            most = most.max(greatest_between(&levels, rate, begin, time));
            begin = time;
        }
        levels[place].0 += frame;
    }
    most.max(greatest_between(&levels, rate, begin, end))
}

/// A time from which on the lines are no further ahead than the levels are before.
fn horizon(levels: &[Level], lines: &[Line], rate: u128) -> Option<u128> {
    let down = |known: u128| {
        let slower = lines.iter().filter(|line| line.1 < rate);
        slower.map(|line| up(line.0.saturating_sub(known) * SECOND, rate - line.1)).min().filter(|&time| time < LATE)
    };
    let latest = down(ahead(levels, rate, 0, SECOND))?;
    let turns = levels.iter().filter_map(|&(level, pace)| pace.filter(|pace| pace.0 < level && pace.1 > 0).map(|pace| (level, pace)));
    let bend = turns.map(|(level, pace)| up((level - pace.0) * SECOND, pace.1)).max().unwrap_or(0).min(latest);
    Some(down(greatest_between(levels, rate, 0, bend)).map_or(latest, |end| end.max(bend).min(latest)))
}

/// The last time before the limit with no more jumps before it than are walked over.
fn last_walked(parts: &[Part]) -> u128 {
    let (mut low, mut high) = (0, LATE - 1);
    while low < high {
        let middle = (low + high).div_ceil(2);
        if jumps_until(parts, middle) <= JUMP_LIMIT {
            low = middle;
        } else {
            high = middle - 1;
        }
    }
    low
}

fn stair_excess(parts: &[Part], lines: &[Line], rate: u128) -> u128 {
    let start = |stair: &Stair| stair.frame * (stair.jitter / stair.gap + 1);
    let levels: Vec<Level> = parts.iter().map(|part| (part.stairs.iter().map(start).sum(), part.pace)).collect();
    let end = horizon(&levels, lines, rate).filter(|&end| jumps_until(parts, end) <= JUMP_LIMIT);
    let end = end.unwrap_or_else(|| last_walked(parts));
    let slow = lines.iter().filter(|line| line.1 <= rate);
    let later = slow.map(|line| up((line.0 * SECOND).saturating_sub((rate - line.1) * end), SECOND)).min().unwrap_or(0);
    walk(parts, levels, rate, end).max(later)
}

fn promise(parts: &[Part], lines: &[Line], (rate, debt): Line, longest: u128) -> Option<(u128, u128)> {
    let by_lines = excess(lines, rate)?;
    if rate == 0 {
        return None;
    }
    let above = by_lines.min(stair_excess(parts, lines, rate));
    let waiting = debt + longest * GRAINS;
    let mut backlog = up(above + waiting, GRAINS);
    for line in lines.iter().filter(|line| line.1 <= rate) {
        backlog = backlog.min(up(line.0 * rate + line.1 * waiting, rate * GRAINS));
    }
    Some((up((above + debt) * SECOND, rate), backlog))
}

fn row(port: &Port, own: Line, queues: &[Queue], q: usize) -> Option<(u128, u128)> {
    if queues[q].longest == 0 {
        return Some((0, 0));
    }
    let parts = queues[q].parts.as_ref()?;
    let lines = steps(&parts.iter().collect::<Vec<_>>());
    let mut least: Option<(u128, u128)> = None;
    for service in services(port, own, queues, q) {
        if let Some((delay, backlog)) = promise(parts, &lines, service, queues[q].longest) {
            let (first, second) = least.unwrap_or((delay, backlog));
            least = Some((first.min(delay), second.min(backlog)));
        }
    }
    least.filter(|(delay, _)| *delay < DELAY_LIMIT)
}

// ---- the whole network
type Places = Vec<Vec<(u32, u32)>>;

fn order(ports: usize, links: &[Link]) -> Vec<u32> {
    let mut edges: Vec<(u32, u32)> = Vec::new();
    for link in links {
        edges.extend(link.nodes.iter().filter(|node| node.above != NONE).map(|node| (link.nodes[node.above as usize].port, node.port)));
    }
    edges.sort_unstable();
    edges.dedup();
    let (mut waits, mut after) = (vec![0u32; ports], vec![Vec::new(); ports]);
    for (from, to) in edges {
        waits[to as usize] += 1;
        after[from as usize].push(to);
    }
    let mut placed: Vec<u32> = (0..ports as u32).filter(|&port| waits[port as usize] == 0).collect();
    let mut place = 0;
    while place < placed.len() {
        for &next in &after[placed[place] as usize] {
            waits[next as usize] -= 1;
            if waits[next as usize] == 0 {
                placed.push(next);
            }
        }
        place += 1;
    }
    placed
}

/// What arrives at the queues of a port; `group` has a place for each port, and for none.
fn arrivals(ports: &[Port], links: &[Link], nodes: &[(u32, u32)], port: usize, group: &mut [u32]) -> Vec<Queue> {
    (0..ports[port].queues())
        .map(|q| {
            let (mut parts, mut longest, mut rates, mut known) = (Vec::<(usize, Line, u128, Vec<Stair>)>::new(), 0, 0, true);
            for &(i, k) in nodes {
                let link = &links[i as usize];
                let node = &link.nodes[k as usize];
                if node.queue as usize != q {
                    continue;
                }
                let source = if node.above == NONE { ports.len() } else { link.nodes[node.above as usize].port as usize };
                if group[source] == NONE {
                    group[source] = parts.len() as u32;
                    parts.push((source, (0, 0), 0, Vec::new()));
                }
                let part = &mut parts[group[source] as usize];
                let line = node.jitter.and_then(|jitter| checked((link.frame * GRAINS + up(link.rate * jitter, SECOND), link.rate)));
                if let (Some(line), Some(jitter)) = (line, node.jitter) {
                    part.1 = (part.1 .0 + line.0, part.1 .1 + line.1);
                    part.3.push(Stair { frame: link.frame * GRAINS, gap: link.gap, jitter });
                }
                known &= line.is_some();
                part.2 = part.2.max(link.frame);
                longest = longest.max(link.frame);
                rates += link.rate;
            }
            let (mut bursts, mut sums) = (0, 0);
            let parts: Vec<Part> = parts
                .into_iter()
                .map(|(source, total, frame, stairs)| {
                    group[source] = NONE;
                    let pace = (source < ports.len()).then(|| (frame * GRAINS, ports[source].pace));
                    bursts += total.0;
                    sums += total.1;
                    Part { total, pace, stairs }
                })
                .collect();
            let is_bounded = known && bursts < BURST_LIMIT && sums < QUEUE_RATE_LIMIT;
            Queue { parts: is_bounded.then_some(parts), longest, rates }
        })
        .collect()
}

type Row = (Option<(u128, u128)>, Option<u128>);

fn table(ports: &[Port], links: &mut [Link]) -> Vec<Vec<Row>> {
    let mut nodes: Places = vec![Vec::new(); ports.len()];
    for (i, link) in links.iter().enumerate() {
        for (k, node) in link.nodes.iter().enumerate() {
            nodes[node.port as usize].push((i as u32, k as u32));
        }
    }
    let mut rows: Vec<Vec<Row>> = (0..ports.len()).map(|_| Vec::new()).collect();
    let mut group = vec![NONE; ports.len() + 1];
    for port in order(ports.len(), links) {
        let port = port as usize;
        for &(i, k) in &nodes[port] {
            let link = &mut links[i as usize];
            let above = link.nodes[k as usize].above;
            if above != NONE {
                let before = &link.nodes[above as usize];
                let delay = rows[before.port as usize][before.queue as usize].0;
                let jitter = before.jitter.zip(delay).map(|(jitter, (delay, _))| jitter + delay);
                link.nodes[k as usize].jitter = jitter.filter(|&jitter| jitter < LATE);
            }
        }
        let queues = arrivals(ports, links, &nodes[port], port, &mut group);
        let own = ports[port].service();
        rows[port] = (0..queues.len())
            .map(|q| {
                let load = match (queues[q].rates, own.0) {
                    (0, _) => Some(0),
                    (_, 0) => None,
                    (rates, rate) => Some(up(rates * 1000, rate)),
                };
                (row(&ports[port], own, &queues, q), load)
            })
            .collect();
    }
    for link in links.iter_mut() {
        for k in 0..link.nodes.len() {
            let node = &link.nodes[k];
            let before = if node.above == NONE { Some(0) } else { link.nodes[node.above as usize].bound };
            let here = rows[node.port as usize][node.queue as usize].0;
            link.nodes[k].bound = before.zip(here).map(|(before, (delay, _))| before + delay + ports[node.port as usize].link);
        }
    }
    rows
}

// ---- the report
fn thousandths(out: &mut String, number: Option<u128>) {
    match number {
        Some(number) => write!(out, "{}.{:03}", number / 1000, number % 1000).unwrap(),
        None => out.push_str("none"),
    }
}

/// A deadline with its own digits, at least three behind the point, or as a fraction in lowest terms.
fn exact(out: &mut String, amount: Amount) {
    for width in 3..19 {
        let scale = 10u128.pow(width);
        if amount.top * scale % amount.bottom == 0 {
            let number = amount.top * scale / amount.bottom;
            write!(out, "{}.{:0width$}", number / scale, number % scale, width = width as usize).unwrap();
            return;
        }
    }
    let (mut common, mut rest) = (amount.top, amount.bottom);
    while rest != 0 {
        (common, rest) = (rest, common % rest);
    }
    write!(out, "{}/{}", amount.top / common, amount.bottom / common).unwrap();
}

fn main() {
    let files: Vec<String> = std::env::args().skip(1).map(|name| std::fs::read_to_string(name).expect("a table")).collect();
    let ports = read_ports(&files[0]);
    let (mut links, branches) = read_links(&files[1], &ports, 20);
    let rows = table(&ports, &mut links);
    let mut out = String::new();
    writeln!(out, "ports {} links {} branches {}", ports.len(), links.len(), branches.len()).unwrap();
    for (port, queues) in ports.iter().zip(&rows) {
        for (q, (promise, load)) in queues.iter().enumerate() {
            write!(out, "port {} {q} load ", port.name).unwrap();
            thousandths(&mut out, *load);
            out.push_str(" delay ");
            thousandths(&mut out, promise.map(|(delay, _)| up(delay, 1000)));
            match promise {
                Some((_, backlog)) => writeln!(out, " backlog {backlog}").unwrap(),
                None => out.push_str(" backlog none\n"),
            }
        }
    }
    let mut is_missed = false;
    for branch in &branches {
        let link = &links[branch.link as usize];
        let node = &link.nodes[branch.node as usize];
        write!(out, "branch {} {} bound ", link.name, ports[node.port as usize].name).unwrap();
        thousandths(&mut out, node.bound.map(|bound| up(bound, 1000)));
        if let Some(deadline) = branch.deadline {
            let is_met = node.bound.is_some_and(|bound| bound * deadline.bottom <= deadline.top * 1_000_000);
            is_missed |= !is_met;
            out.push_str(" deadline ");
            exact(&mut out, deadline);
            out.push_str(if is_met { " met" } else { " missed" });
        }
        out.push('\n');
    }
    std::io::stdout().write_all(out.as_bytes()).expect("an output");
    std::process::exit(if is_missed { 9 } else { 0 });
}
