//! Random listings, good and damaged, random relations, and random rows of calls.

use crate::listing::Program;
use crate::problem::{Flow, Given};
use crate::rng::Rng;
use crate::solve::tabulate;
use crate::wire::Call;

/// What a random listing is to be like.
#[derive(Clone, Copy, Debug)]
pub struct Shape {
    pub globals: usize,
    pub locals: usize,
    pub points: usize,
    pub procs: usize,
}

/// A shape of at most `most` points: mostly 1 to 8 procedures, sometimes up to 60; `cells` bounds the cells.
pub fn shape(rng: &mut Rng, most: usize, cells: usize) -> Shape {
    let points = match rng.below(4) {
        0 => rng.range(1, most.min(8)),
        _ => rng.range(1, most),
    };
    let procs = match rng.below(12) {
        0 => rng.range(1, points.min(60)),
        _ => rng.range(1, points.min(8)),
    };
    let globals = rng.below(cells.min(31) + 1).min(cells - 1);
    let locals = rng.range(1, (cells - globals).min(32));
    Shape {
        globals,
        locals,
        points,
        procs,
    }
}

fn cell(rng: &mut Rng, s: &Shape) -> String {
    // half of the time near the first cells, so that facts meet
    let global = s.globals > 0 && rng.below(s.globals + s.locals) < s.globals;
    let of = if global { s.globals } else { s.locals };
    let i = if rng.one_in(2) {
        rng.below(of.min(3))
    } else {
        rng.below(of)
    };
    format!("{}{}", if global { 'g' } else { 'l' }, i)
}

/// The lines of a listing that is accepted.
pub fn lines(rng: &mut Rng, s: &Shape) -> Vec<String> {
    let mut out = vec![format!("cells {} {}", s.globals, s.locals)];
    // where the procedures end
    let mut ends = vec![s.points - 1];
    while ends.len() < s.procs {
        let e = rng.below(s.points);
        if !ends.contains(&e) {
            ends.push(e);
        }
    }
    ends.sort();
    let calls = *rng.pick(&[0, 1, 3, 6, 12]);
    let jumps = *rng.pick(&[0, 1, 2, 4]);
    let down = rng.one_in(4); // calls only of later procedures: no recursion
    let forward = rng.one_in(3);
    let writes = *rng.pick(&[1, 3]);
    let mut begin = 0;
    for (p, &end) in ends.iter().enumerate() {
        for n in begin..end {
            let callee = if down {
                rng.range(p, s.procs - 1)
            } else {
                rng.below(s.procs)
            };
            let callee = if down && callee == p { None } else { Some(callee) };
            let target = if forward {
                rng.range(n + 1, end)
            } else {
                rng.range(begin, end)
            };
            let pick = rng.below(calls + jumps * 2 + writes * 5 + 1);
            let line = if pick < calls {
                match callee {
                    Some(q) => format!("call {} {} {}", cell(rng, s), q, cell(rng, s)),
                    None => format!("send {}", cell(rng, s)),
                }
            } else if pick < calls + jumps {
                format!("test {} {}", cell(rng, s), target)
            } else if pick < calls + jumps * 2 && rng.one_in(3) {
                format!("goto {target}")
            } else {
                match rng.below(12) {
                    0 | 1 => format!("set {}", cell(rng, s)),
                    2..=4 => format!("move {} {}", cell(rng, s), cell(rng, s)),
                    5 | 6 => format!("add {} {} {}", cell(rng, s), cell(rng, s), cell(rng, s)),
                    7 | 8 => format!("read {}", cell(rng, s)),
                    9 | 10 => format!("trim {} {}", cell(rng, s), cell(rng, s)),
                    _ => format!("send {}", cell(rng, s)),
                }
            };
            out.push(line);
        }
        out.push(format!("ret {}", cell(rng, s)));
        begin = end + 1;
    }
    out
}

/// The lines of a long listing for measuring: procedures of about equal length, most of it reached, with a call in some ten statements.
pub fn busy(rng: &mut Rng, s: &Shape) -> Vec<String> {
    let mut out = vec![format!("cells {} {}", s.globals, s.locals)];
    let mut begin = 0;
    for p in 0..s.procs {
        let end = s.points * (p + 1) / s.procs - 1;
        for n in begin..end {
            out.push(match rng.below(20) {
                0 | 1 => format!("call {} {} {}", cell(rng, s), rng.below(s.procs), cell(rng, s)),
                2 | 3 => format!("test {} {}", cell(rng, s), rng.range(begin, end)),
                4 => format!("goto {}", rng.range(n + 1, end.min(n + 3))),
                5 => format!("set {}", cell(rng, s)),
                6 => format!("read {}", cell(rng, s)),
                7 | 8 => format!("send {}", cell(rng, s)),
                9 => format!("trim {} {}", cell(rng, s), cell(rng, s)),
                10..=13 => format!("move {} {}", cell(rng, s), cell(rng, s)),
                _ => format!("add {} {} {}", cell(rng, s), cell(rng, s), cell(rng, s)),
            });
        }
        out.push(format!("ret {}", cell(rng, s)));
        begin = end + 1;
    }
    out
}

/// One line made so that a given question is answered no, unless an earlier one is. A whole listing may change for it.
fn aimed(rng: &mut Rng, lines: &mut Vec<String>, question: usize) {
    let n = lines.len();
    let at = if n > 2 { rng.range(1, n - 2) } else { 1 };
    let rets = lines.iter().filter(|l| l.starts_with("ret")).count();
    let mut put = |rng: &mut Rng, line: String| {
        if n > 2 && rng.one_in(2) {
            lines[at] = line;
        } else {
            lines.insert(at, line);
        }
    };
    match question {
        3 => {
            lines[0] = rng
                .pick(&[
                    "cells 0 0",
                    "cells 32 1",
                    "cells 0 33",
                    "cells 31 33",
                    "cells 9999 9999",
                ])
                .to_string()
        }
        4 => {
            if rng.one_in(3) {
                lines.truncate(1);
            } else {
                let to = rng.range(999, 1003);
                let from = lines.get(1).cloned().unwrap_or("ret l0".into());
                while lines.len() < to {
                    lines.insert(1, from.clone());
                }
            }
        }
        5 => lines.push(rng.pick(&["send l0", "goto 0", "set l40", "call l0 70 l0"]).to_string()),
        6 => {
            let many = rng.range(56, 62);
            for _ in 0..many {
                let at = rng.range(1, lines.len());
                lines.insert(at, "ret l0".into());
            }
        }
        7 => {
            let c = *rng.pick(&["g0", "l0", "g1", "l1", "g30", "g31", "l31", "l32", "g9999", "l9999"]);
            let line = match rng.below(6) {
                0 => format!("set {c}"),
                1 => format!("add l0 l0 {c}"),
                2 => format!("call l0 0 {c}"),
                3 => format!("test {c} 0"),
                4 => format!("trim l0 {c}"),
                _ => format!("send {c}"),
            };
            put(rng, line);
        }
        8 => {
            let k = *rng.pick(&[
                0,
                1,
                at,
                at + 1,
                n.saturating_sub(3),
                n.saturating_sub(2),
                n - 1,
                n,
                n + 1,
                999,
                1000,
                9999,
            ]);
            let line = if rng.one_in(2) {
                format!("goto {k}")
            } else {
                format!("test l0 {k}")
            };
            put(rng, line);
        }
        _ => {
            let p = *rng.pick(&[rets, rets + 1, rets.saturating_sub(1), 59, 60, 61, 9999]);
            put(rng, format!("call l0 {p} l0"));
        }
    }
}

pub fn spell(lines: &[String]) -> Vec<u8> {
    let mut out = Vec::new();
    for l in lines {
        out.extend(l.bytes());
        out.push(10);
    }
    out
}

pub fn listing(rng: &mut Rng, s: &Shape) -> Vec<u8> {
    spell(&lines(rng, s))
}

/// Puts another number for one of the numbers of a line.
fn renumber(rng: &mut Rng, line: &str) -> String {
    let numbers = [
        "0",
        "1",
        "2",
        "7",
        "30",
        "31",
        "32",
        "33",
        "59",
        "60",
        "61",
        "999",
        "1000",
        "1001",
        "9999",
        "10000",
        "00",
        "01",
        "",
        "-1",
        "+1",
        "99999999999999999999",
        "0x1",
        "1.0",
        "65536",
        "256",
        "１",
    ];
    let bytes = line.as_bytes();
    let mut runs = vec![];
    let mut i = 0;
    while i < bytes.len() {
        if bytes[i].is_ascii_digit() {
            let from = i;
            while i < bytes.len() && bytes[i].is_ascii_digit() {
                i += 1;
            }
            runs.push((from, i));
        } else {
            i += 1;
        }
    }
    if runs.is_empty() {
        return line.to_string();
    }
    let (from, to) = *rng.pick(&runs);
    format!("{}{}{}", &line[..from], rng.pick(&numbers), &line[to..])
}

const STRANGE: [&str; 24] = [
    "",
    " ",
    "set",
    "set l0 ",
    " set l0",
    "set  l0",
    "set\tl0",
    "SET l0",
    "set L0",
    "set x0",
    "set l",
    "set l0 l0",
    "ret",
    "ret l0 l0",
    "goto l0",
    "goto -1",
    "test 0 l0",
    "call l0 l0 0",
    "call l0 0",
    "cells 1 1",
    "add l0 l0",
    "nop",
    "set l0\r",
    "trim l0 0",
];

fn damage_lines(rng: &mut Rng, lines: &mut Vec<String>) {
    let n = lines.len();
    let at = rng.below(n);
    match rng.below(14) {
        0 => {
            lines.remove(at);
        }
        1 => lines.truncate(at),
        2 => {
            let l = lines[at].clone();
            let to = rng.below(n + 1);
            lines.insert(to, l);
        }
        3 => {
            let other = rng.below(n);
            lines.swap(at, other);
        }
        4..=6 => lines[at] = renumber(rng, &lines[at]),
        7 => lines.insert(at, rng.pick(&STRANGE).to_string()),
        8 => lines[at] = rng.pick(&STRANGE).to_string(),
        9 => {
            // a word lost, or doubled
            let mut words: Vec<String> = lines[at].split(' ').map(|w| w.to_string()).collect();
            let i = rng.below(words.len());
            if rng.one_in(2) {
                words.remove(i);
            } else {
                words.insert(i, words[i].clone());
            }
            lines[at] = words.join(" ");
        }
        10 => {
            lines.pop();
            if rng.one_in(2) {
                lines.push("send l0".into());
            }
        }
        11 => {
            // many returns
            let many = rng.range(55, 63);
            for _ in 0..many {
                lines.push("ret l0".into());
            }
        }
        12 => lines[0] = renumber(rng, &lines[0].clone()),
        _ => {
            let n = if rng.one_in(2) {
                rng.range(995, 1005)
            } else {
                rng.range(1, 3)
            };
            let last = lines.pop().unwrap_or("ret l0".into());
            if lines.is_empty() {
                lines.push("cells 1 1".into());
            }
            if rng.one_in(2) {
                lines.truncate(1);
            }
            while lines.len() < n {
                lines.push("send l0".into());
            }
            lines.push(last);
        }
    }
    if lines.is_empty() && !rng.one_in(8) {
        lines.push("cells 0 1".into());
    }
}

fn damage_bytes(rng: &mut Rng, text: &mut Vec<u8>) {
    if text.is_empty() {
        text.push(rng.next() as u8);
        return;
    }
    let at = rng.below(text.len());
    match rng.below(12) {
        0 | 1 => text[at] ^= 1 << rng.below(8),
        2 => text[at] = rng.next() as u8,
        3 => {
            text.remove(at);
        }
        4 => text.insert(at, *rng.pick(b"0123456789 glsetcad\n\r\t\0\xff")),
        5 => text.truncate(at),
        6 => {
            text.pop();
        }
        7 => text.push(*rng.pick(b"\n \r0")),
        8 => {
            let i = text.iter().position(|b| *b == 10).unwrap_or(0);
            text.insert(i, *rng.pick(b"\r \n"));
        }
        9 => {
            // towards the greatest length, and a little more
            let to = rng.range(32_760, 32_776);
            let fill = *rng.pick(&[&b"send l0\n"[..], &b"ret l0\n"[..], &b"\n"[..], &b" "[..]]);
            while text.len() < to {
                text.extend_from_slice(fill);
            }
            text.truncate(to);
        }
        10 => text.clear(),
        _ => {
            let i = text[at..]
                .iter()
                .position(|b| b.is_ascii_digit())
                .map(|i| at + i)
                .unwrap_or(at);
            text[i] = *rng.pick(b"0123456789");
        }
    }
}

/// A listing that was good until something happened to it. It may still be good.
pub fn damaged(rng: &mut Rng, s: &Shape) -> Vec<u8> {
    let mut l = lines(rng, s);
    if rng.one_in(2) {
        for _ in 0..rng.range(1, 2) {
            let question = rng.range(3, 9);
            aimed(rng, &mut l, question);
        }
        let mut text = spell(&l);
        if rng.one_in(8) {
            damage_bytes(rng, &mut text);
        }
        return text;
    }
    let mut by_lines = rng.below(3);
    let mut by_bytes = if by_lines == 0 { rng.range(1, 2) } else { rng.below(2) };
    if rng.one_in(3) {
        by_lines = 1;
        by_bytes = 0;
    }
    for _ in 0..by_lines {
        if !l.is_empty() {
            damage_lines(rng, &mut l);
        }
    }
    let mut text = spell(&l);
    for _ in 0..by_bytes {
        if by_bytes == 1 && rng.one_in(3) {
            break;
        }
        damage_bytes(rng, &mut text);
    }
    text
}

/// The number of facts: mostly few.
pub fn facts(rng: &mut Rng) -> usize {
    match rng.below(24) {
        0 => rng.range(1, 64),
        1 | 2 => rng.range(1, 20),
        3 => *rng.pick(&[1, 2, 7, 8, 9, 15, 16, 17, 31, 32, 33, 63, 64]),
        _ => rng.range(1, 7),
    }
}

/// A random relation. Kinds that a statement lacks and facts of F or more have bits too: neither may count.
pub fn relation(rng: &mut Rng, points: usize, facts: usize) -> Given {
    let sparse = 256 / facts.max(1);
    let overall = *rng.pick(&[0, sparse / 2, sparse, sparse * 2, 40, 90, 128, 240]);
    let uneven = rng.one_in(2);
    let junk = rng.one_in(3);
    let keep = rng.one_in(2); // most facts follow from themselves
    let zero = rng.one_in(2);
    let all = if facts == 64 { u64::MAX } else { (1u64 << facts) - 1 };
    let mut rows = Vec::with_capacity(points * 4 * facts);
    for _ in 0..points {
        for _ in 0..4 {
            let p = if uneven {
                *rng.pick(&[0, sparse / 2, sparse, sparse * 2, 40, 128, 256])
            } else {
                overall
            };
            for d in 0..facts {
                let mut row = rng.bits(p);
                if keep && !rng.one_in(4) {
                    row |= 1 << d;
                }
                if zero {
                    if d == 0 {
                        row |= 1;
                    } else {
                        row &= !1;
                    }
                }
                rows.push(if junk { row } else { row & all });
            }
        }
    }
    Given { facts, rows }
}

/// A listing and a relation whose trails nest many calls: each procedure calls the next, and the first is called again with the next fact;
/// only from the last fact is there a way that calls nothing.
pub fn deep(rng: &mut Rng) -> (Vec<u8>, Given) {
    let procs = rng.range(1, 3);
    let facts = if rng.one_in(2) {
        rng.range(64 / procs, 64)
    } else {
        rng.range(2, 64)
    };
    let mut l = vec!["cells 0 1".to_string()];
    let mut rows = Vec::new();
    for p in 0..procs {
        let at = p * 5;
        let next = (p + 1) % procs;
        l.push(format!("test l0 {}", at + 3));
        l.push(format!("call l0 {next} l0"));
        l.push(format!("goto {}", at + 4));
        l.push("send l0".into());
        l.push("ret l0".into());
        for n in 0..5 {
            for kind in 0..4 {
                for d in 0..facts {
                    let more = kind == 2 && next == 0;
                    let mut row = match (n, kind) {
                        (3, 0) => {
                            if p + 1 == procs && d + 1 == facts {
                                1u64 << d
                            } else {
                                0
                            }
                        }
                        (1, 1) => 0,
                        _ if more && d + 1 == facts => 0,
                        _ if more => 2 << d,
                        _ => 1 << d,
                    };
                    if rng.one_in(4000) {
                        row |= 1 << rng.below(facts);
                    }
                    rows.push(row);
                }
            }
        }
    }
    (spell(&l), Given { facts, rows })
}

/// A listing and a relation whose trails are long: each procedure calls the next a few times, so that the lengths multiply.
pub fn long(rng: &mut Rng) -> (Vec<u8>, Given) {
    let procs = rng.range(6, 13);
    let facts = rng.range(1, 3);
    let mut l = vec!["cells 0 1".to_string()];
    for p in 0..procs {
        if p + 1 < procs {
            for _ in 0..rng.range(1, 3) {
                l.push(format!("call l0 {} l0", p + 1));
            }
        }
        if rng.one_in(3) {
            l.push("send l0".into());
        }
        l.push("ret l0".into());
    }
    let points = l.len() - 1;
    let mut rows = Vec::new();
    for _ in 0..points {
        for kind in 0..4 {
            for d in 0..facts {
                let row: u64 = if kind == 1 { 0 } else { 1 << d };
                rows.push(if rng.one_in(40) {
                    row | 1 << rng.below(facts)
                } else {
                    row
                });
            }
        }
    }
    (spell(&l), Given { facts, rows })
}

/// A relation in which about `out` facts follow from each fact.
pub fn relation_of_degree(rng: &mut Rng, points: usize, facts: usize, out: f64) -> Given {
    let all = if facts == 64 { u64::MAX } else { (1u64 << facts) - 1 };
    let p = ((256.0 * out / facts as f64) as usize).clamp(1, 256);
    let mut rows = Vec::with_capacity(points * 4 * facts);
    for _ in 0..points * 4 * facts {
        rows.push(rng.bits(p) & all);
    }
    Given { facts, rows }
}

fn random_call(rng: &mut Rng, prog: &Program, facts: usize) -> Call {
    match rng.below(20) {
        0..=3 => sow(rng, prog, facts),
        4..=6 => Call::Oldest(portion(rng)),
        7..=9 => Call::Newest(portion(rng)),
        10 | 11 => Call::Close,
        12 | 13 => Call::Reopen,
        14 => Call::Report,
        _ => trail(rng, prog, facts),
    }
}

fn portion(rng: &mut Rng) -> u32 {
    match rng.below(6) {
        0 => 0,
        1 => 1,
        2 | 3 => rng.range(2, 9) as u32,
        4 => rng.range(10, 300) as u32,
        _ => *rng.pick(&[u32::MAX, 100_000, 1 << 31, 65_536]),
    }
}

fn sow(rng: &mut Rng, prog: &Program, facts: usize) -> Call {
    let p = if rng.one_in(10) {
        *rng.pick(&[prog.procs() as u32, prog.procs() as u32 + 1, 60, 61, 255, 256, 65_535])
    } else {
        let first = rng.one_in(2);
        rng.below(if first { 1 } else { prog.procs() }) as u32
    };
    let d = if rng.one_in(12) {
        *rng.pick(&[facts as u32, 63, 64, 65, 255])
    } else if rng.one_in(3) {
        0
    } else {
        rng.below(facts) as u32
    };
    Call::Sow(p, d)
}

fn trail(rng: &mut Rng, prog: &Program, facts: usize) -> Call {
    let n = if rng.one_in(12) {
        *rng.pick(&[prog.points() as u32, 999, 1000, 1001, 1023, 1024, 65_535])
    } else {
        rng.below(prog.points()) as u32
    };
    let d = if rng.one_in(12) {
        *rng.pick(&[facts as u32, 63, 64, 255])
    } else {
        rng.below(facts) as u32
    };
    Call::Trail(n, d)
}

/// A random row of calls: rounds of sowing, working in portions from both ends, closing, reports and trails, with stray calls among them.
/// Most trails ask for pairs that are reached from what was sown before.
pub fn calls(rng: &mut Rng, prog: &Program, r: &Given) -> Vec<Call> {
    let mut out = row(rng, prog, r.facts);
    let flow = Flow::given(prog, r);
    let mut sown: Vec<(usize, usize)> = Vec::new();
    let mut reached: Vec<(u32, u32)> = Vec::new();
    let mut known = 0;
    for c in &mut out {
        match c {
            Call::Sow(p, d) if (*p as usize) < prog.procs() && (*d as usize) < r.facts => {
                sown.push((*p as usize, *d as usize))
            }
            Call::Trail(n, d) if (*n as usize) < prog.points() && (*d as usize) < r.facts && !rng.one_in(5) => {
                if known != sown.len() {
                    known = sown.len();
                    reached.clear();
                    for (n, facts) in tabulate(prog, &flow, &sown).pairs().iter().enumerate() {
                        reached.extend(
                            (0..r.facts)
                                .filter(|d| facts >> d & 1 == 1)
                                .map(|d| (n as u32, d as u32)),
                        );
                    }
                }
                if !reached.is_empty() {
                    (*n, *d) = *rng.pick(&reached);
                }
            }
            _ => {}
        }
    }
    out
}

fn row(rng: &mut Rng, prog: &Program, facts: usize) -> Vec<Call> {
    let mut out = Vec::new();
    if rng.one_in(6) {
        for _ in 0..rng.range(0, 40) {
            out.push(random_call(rng, prog, facts));
        }
        return out;
    }
    let ends = rng.below(3);
    let stray = *rng.pick(&[3, 6, 12, 1000]);
    for round in 0..rng.range(1, 3) {
        if round > 0 {
            out.push(Call::Reopen);
        }
        let mut some = Vec::new();
        let sows = if round == 0 { rng.range(0, 6) } else { rng.range(0, 3) };
        for _ in 0..sows {
            some.push(sow(rng, prog, facts));
            for _ in 0..rng.below(2) {
                some.push(work(rng, ends, None));
            }
        }
        for _ in 0..rng.below(5) {
            some.push(work(rng, ends, None));
        }
        some.push(work(rng, ends, Some(u32::MAX)));
        some.push(Call::Close);
        if rng.one_in(2) {
            some.push(Call::Report);
        }
        for _ in 0..rng.below(8) {
            some.push(trail(rng, prog, facts));
        }
        for c in some {
            out.push(c);
            if rng.one_in(stray) {
                out.push(random_call(rng, prog, facts));
            }
        }
    }
    out
}

fn work(rng: &mut Rng, ends: usize, k: Option<u32>) -> Call {
    let k = k.unwrap_or_else(|| portion(rng));
    match ends {
        0 => Call::Oldest(k),
        1 => Call::Newest(k),
        _ if rng.one_in(2) => Call::Oldest(k),
        _ => Call::Newest(k),
    }
}

/// The listing of a case of this number: now and then one whose trails nest deep or are long, with the relation that makes them so.
pub fn case_listing(rng: &mut Rng, shape: &Shape, number: u64) -> (Vec<u8>, Option<Given>) {
    let special = match number % 20 {
        7 => Some(deep(rng)),
        13 => Some(long(rng)),
        _ => None,
    };
    match special {
        Some((text, relation)) => (text, Some(relation)),
        None => (listing(rng, shape), None),
    }
}
