//! The worklist solvers: tabulation as Reps, Horwitz and Sagiv (1995) write it, with the end summaries and the callers of Naeem, Lhoták and
//! Rodriguez (2010). `tabulate` takes path edges one by one. `tabulate_batched` takes, at one point and entry fact, all facts that wait there
//! in one go.

use crate::listing::{Program, Stmt};
use crate::problem::Flow;

/// The path edges <entry, a> -> <n, d>: bit d of word n * F + a.
pub struct Edges {
    pub facts: usize,
    pub path: Vec<u64>,
}

impl Edges {
    pub fn has(&self, n: usize, a: usize, d: usize) -> bool {
        self.path[n * self.facts + a] >> d & 1 == 1
    }

    pub fn count(&self) -> usize {
        self.path.iter().map(|w| w.count_ones() as usize).sum()
    }

    /// For each point the facts with a path edge.
    pub fn pairs(&self) -> Vec<u64> {
        self.path
            .chunks(self.facts)
            .map(|c| c.iter().fold(0, |a, b| a | b))
            .collect()
    }
}

struct Work<'a> {
    flow: &'a Flow,
    path: Vec<u64>,
    list: Vec<(u16, u8, u8)>,
    /// For the call with index i in `call_index` and the callee's entry fact e: the entry facts of the caller.
    callers: Vec<u64>,
    /// For procedure p and its entry fact e: the facts at its exit.
    summaries: Vec<u64>,
}

impl Work<'_> {
    #[inline]
    fn propagate(&mut self, n: usize, a: usize, facts: u64) {
        let at = n * self.flow.facts + a;
        let mut new = facts & !self.path[at];
        self.path[at] |= new;
        while new != 0 {
            self.list.push((n as u16, a as u8, new.trailing_zeros() as u8));
            new &= new - 1;
        }
    }
}

pub fn tabulate(prog: &Program, flow: &Flow, starts: &[(usize, usize)]) -> Edges {
    let f = flow.facts;
    let size = prog.points() * f;
    let mut w = Work {
        flow,
        path: vec![0; size],
        list: Vec::new(),
        callers: vec![0; size],
        summaries: vec![0; prog.procs() * f],
    };
    for &(p, d) in starts {
        w.propagate(prog.entry[p], d, 1 << d);
    }
    while let Some((n, a, d)) = w.list.pop() {
        let (n, a, d) = (n as usize, a as usize, d as usize);
        match prog.stmts[n] {
            Stmt::Call { p, .. } => {
                let past = flow.past[n * f + d];
                w.propagate(n + 1, a, past);
                let mut into = flow.call[n * f + d];
                while into != 0 {
                    let e = into.trailing_zeros() as usize;
                    into &= into - 1;
                    w.propagate(prog.entry[p], e, 1 << e);
                    let known = &mut w.callers[n * f + e];
                    if *known >> a & 1 == 1 {
                        continue;
                    }
                    *known |= 1 << a;
                    let mut ends = w.summaries[p * f + e];
                    while ends != 0 {
                        let z = ends.trailing_zeros() as usize;
                        ends &= ends - 1;
                        w.propagate(n + 1, a, flow.ret[n * f + z]);
                    }
                }
            }
            Stmt::Ret { .. } => {
                let p = prog.proc_of[n];
                w.summaries[p * f + a] |= 1 << d;
                for &c in &prog.calls_of[p] {
                    let back = flow.ret[c * f + d];
                    if back == 0 {
                        continue;
                    }
                    let mut from = w.callers[c * f + a];
                    while from != 0 {
                        let b = from.trailing_zeros() as usize;
                        from &= from - 1;
                        w.propagate(c + 1, b, back);
                    }
                }
            }
            _ => {
                let row = flow.step[n * f + d];
                let (to, many) = prog.successors(n);
                for m in &to[..many] {
                    w.propagate(*m, a, row);
                }
            }
        }
    }
    Edges { facts: f, path: w.path }
}

struct Batch {
    facts: usize,
    path: Vec<u64>,
    wait: Vec<u64>,
    list: Vec<u32>,
}

impl Batch {
    #[inline]
    fn propagate(&mut self, n: usize, a: usize, facts: u64) {
        let at = n * self.facts + a;
        let new = facts & !self.path[at];
        if new != 0 {
            self.path[at] |= new;
            if self.wait[at] == 0 {
                self.list.push(at as u32);
            }
            self.wait[at] |= new;
        }
    }
}

#[inline]
fn image(rows: &[u64], mut of: u64) -> u64 {
    let mut all = 0;
    while of != 0 {
        all |= rows[of.trailing_zeros() as usize];
        of &= of - 1;
    }
    all
}

pub fn tabulate_batched(prog: &Program, flow: &Flow, starts: &[(usize, usize)]) -> Edges {
    let f = flow.facts;
    let size = prog.points() * f;
    let mut w = Batch {
        facts: f,
        path: vec![0; size],
        wait: vec![0; size],
        list: Vec::new(),
    };
    let mut callers = vec![0u64; size];
    let mut summaries = vec![0u64; prog.procs() * f];
    for &(p, d) in starts {
        w.propagate(prog.entry[p], d, 1 << d);
    }
    while let Some(at) = w.list.pop() {
        let at = at as usize;
        let (n, a) = (at / f, at % f);
        let facts = std::mem::take(&mut w.wait[at]);
        let base = n * f;
        match prog.stmts[n] {
            Stmt::Call { p, .. } => {
                w.propagate(n + 1, a, image(&flow.past[base..base + f], facts));
                let mut into = image(&flow.call[base..base + f], facts);
                while into != 0 {
                    let e = into.trailing_zeros() as usize;
                    into &= into - 1;
                    if callers[base + e] >> a & 1 == 1 {
                        continue;
                    }
                    callers[base + e] |= 1 << a;
                    w.propagate(prog.entry[p], e, 1 << e);
                    w.propagate(n + 1, a, image(&flow.ret[base..base + f], summaries[p * f + e]));
                }
            }
            Stmt::Ret { .. } => {
                let p = prog.proc_of[n];
                summaries[p * f + a] |= facts;
                for &c in &prog.calls_of[p] {
                    let mut from = callers[c * f + a];
                    if from == 0 {
                        continue;
                    }
                    let back = image(&flow.ret[c * f..c * f + f], facts);
                    while from != 0 {
                        let b = from.trailing_zeros() as usize;
                        from &= from - 1;
                        w.propagate(c + 1, b, back);
                    }
                }
            }
            _ => {
                let row = image(&flow.step[base..base + f], facts);
                let (to, many) = prog.successors(n);
                for m in &to[..many] {
                    w.propagate(*m, a, row);
                }
            }
        }
    }
    Edges { facts: f, path: w.path }
}
