//! What goes to the library and what comes back: rows of calls as words, and the library's functions answered here, by the simulation.

use crate::listing::read;
use crate::problem::Given;
use crate::table::{End, Nothing, Table};

pub const TRAIL_WORDS: usize = 4096;
pub const TRAIL_CALLS: usize = 64;
pub const REPORT_PAGE: usize = 1 << 20;
pub const END_OF_CALLS: u32 = 9999;
pub const REFUSED: u32 = 1000;
pub const NOT_PUT: u32 = 2000;

#[derive(Clone, Copy, Debug, PartialEq, Eq)]
pub enum Call {
    Sow(u32, u32),
    Oldest(u32),
    Newest(u32),
    Close,
    Reopen,
    Trail(u32, u32),
    Report,
}

impl Call {
    pub fn words(self) -> [u32; 3] {
        match self {
            Call::Sow(p, d) => [1, p, d],
            Call::Oldest(k) => [2, k, 0],
            Call::Newest(k) => [3, k, 0],
            Call::Close => [4, 0, 0],
            Call::Reopen => [5, 0, 0],
            Call::Trail(n, d) => [6, n, d],
            Call::Report => [7, 0, 0],
        }
    }

    pub fn of(words: &[u32]) -> Option<Call> {
        Some(match *words {
            [1, p, d] => Call::Sow(p, d),
            [2, k, _] => Call::Oldest(k),
            [3, k, _] => Call::Newest(k),
            [4, _, _] => Call::Close,
            [5, _, _] => Call::Reopen,
            [6, n, d] => Call::Trail(n, d),
            [7, _, _] => Call::Report,
            _ => return None,
        })
    }
}

pub fn words(run: &[Call]) -> Vec<u32> {
    run.iter().flat_map(|c| c.words()).collect()
}

/// What one call gave.
#[derive(Clone, Debug, PartialEq, Eq)]
pub struct Answer {
    pub answer: u32,
    pub found: u32,
    pub settled: u32,
    pub waiting: u32,
    /// The words of a trail or the bytes of a report; of the other calls none at all, not even their count.
    pub more: Option<Vec<u32>>,
}

/// Plays a row of calls on a table in the simulation. What each call gave comes also apart from its encoding, in which the number of a refusal
/// cannot be told from as great a number of words or of cells.
pub fn play(
    prog: &crate::listing::Program,
    r: &Given,
    run: &[Call],
) -> (Vec<Answer>, Vec<Result<u32, Nothing>>, Table) {
    let cells = prog.points() * r.facts * r.facts;
    let mut t = Table::open(cells, prog.points(), r.facts).expect("exactly so many records");
    let mut out = Vec::new();
    let mut apart = Vec::new();
    for &c in run {
        let mut more = None;
        let given: Result<u32, Nothing> = match c {
            Call::Sow(p, d) => t.sow(prog, r, p as usize, d as usize),
            Call::Oldest(k) => t.work(prog, r, k, End::Oldest),
            Call::Newest(k) => t.work(prog, r, k, End::Newest),
            Call::Close => t.close().map(|_| 0),
            Call::Reopen => t.reopen().map(|_| 0),
            Call::Trail(n, d) => {
                let got = t.trail(prog, r, n as usize, d as usize, TRAIL_WORDS, TRAIL_CALLS);
                more = Some(got.clone().unwrap_or_default());
                got.map(|w| w.len() as u32)
            }
            Call::Report => {
                let got = t.report(REPORT_PAGE);
                more = Some(got.clone().unwrap_or_default().iter().map(|b| *b as u32).collect());
                got.map(|_| 0)
            }
        };
        let answer = match given {
            Ok(n) => n,
            Err(Nothing::Refused(k)) => REFUSED + k,
            Err(Nothing::NotPut) => NOT_PUT,
        };
        apart.push(given);
        out.push(Answer {
            answer,
            found: t.found,
            settled: t.settled,
            waiting: t.waiting.len() as u32,
            more,
        });
    }
    (out, apart, t)
}

pub fn encode(answers: &[Answer], t: &Table) -> Vec<u32> {
    let mut out = Vec::new();
    for a in answers {
        out.extend([a.answer, a.found, a.settled, a.waiting]);
        if let Some(more) = &a.more {
            out.push(more.len() as u32);
            out.extend(more);
        }
    }
    out.push(END_OF_CALLS);
    for r in &t.records {
        out.extend([r.rank, r.kind, r.first, r.second]);
    }
    out
}

/// The function `tabulate` of the library, answered by the simulation; none where the library gives 0.
pub fn tabulate(listing: &[u8], relation: &[u8], facts: u8, run: &[u32]) -> Option<Vec<u32>> {
    let prog = read(listing).ok()?;
    let r = Given::from_bytes(facts as usize, prog.points(), relation)?;
    let calls: Option<Vec<Call>> = run.chunks(3).map(Call::of).collect();
    let (answers, _, t) = play(&prog, &r, &calls?);
    Some(encode(&answers, &t))
}

/// In which part of the answer to a row of calls is word `i`? In words, for a person.
pub fn where_is(run: &[Call], answers: &[Answer], i: usize, cells: usize) -> String {
    let mut at = 0;
    for (c, (call, a)) in run.iter().zip(answers).enumerate() {
        let len = 4 + a.more.as_ref().map_or(0, |m| m.len() + 1);
        if i < at + len {
            let what = ["answer", "found", "settled", "waiting", "count"]
                .get(i - at)
                .copied()
                .unwrap_or("word or byte");
            return format!("call {c} ({call:?}): {what}");
        }
        at += len;
    }
    if i == at {
        return "the mark behind the calls".into();
    }
    let k = i - at - 1;
    if k / 4 >= cells {
        return "behind the records".into();
    }
    format!(
        "record of cell {}: {}",
        k / 4,
        ["rank", "kind", "first", "second"][k % 4]
    )
}
