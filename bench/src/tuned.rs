//! The table's job as `table.rs` simulates it, tuned by hand: the same records in the same memory, settled in the same order, with what is
//! found kept as rows of facts.
//!
//! The row of waiting cells is kept in runs: a run is cells of one point and entry fact that wait one behind the other, with ascending facts.
//! What the settling of calls and returns may pass over is kept for each call, as rows again. A record has the four words of the rules; rows
//! and runs lie beside the records.

use std::ops::Range;

use crate::listing::{Program, Stmt};
use crate::problem::Flow;
use crate::table::{End, CALL, PAST, RETURN, START, STEP};

/// A record in two words, so that it is written in two goes: the rank below the kind, the first cell below the second.
#[derive(Clone, Copy, Debug, Default, PartialEq, Eq)]
pub struct Record {
    how: u64,
    from: u64,
}

impl Record {
    #[inline]
    pub fn new(rank: u32, kind: u32, first: u32, second: u32) -> Record {
        Record {
            how: (kind as u64) << 32 | rank as u64,
            from: (second as u64) << 32 | first as u64,
        }
    }

    /// The record as the simulation writes it.
    pub fn words(self) -> crate::table::Record {
        crate::table::Record {
            rank: self.how as u32,
            kind: (self.how >> 32) as u32,
            first: self.from as u32,
            second: (self.from >> 32) as u32,
        }
    }
}

#[derive(Clone, Copy)]
enum Op {
    Step(u16),
    Fork(u16, u16),
    /// The number of the call, among the calls.
    Call(u16),
    /// The procedure.
    Ret(u16),
}

struct Site {
    at: usize,
    callee: usize,
    entry: usize,
    exit: usize,
    /// All that may follow from anything by the return to this call.
    back: u64,
}

/// A program and its flow functions, decoded for settling.
pub struct Job<'a> {
    flow: &'a Flow,
    ops: Vec<Op>,
    entries: Vec<usize>,
    sites: Vec<Site>,
    /// The calls of each procedure, ascending.
    callers: Vec<Vec<usize>>,
    /// Word i * F + a, for call i: the facts from which a follows by the call.
    sources: Vec<u64>,
}

impl<'a> Job<'a> {
    pub fn new(prog: &Program, flow: &'a Flow) -> Job<'a> {
        let f = flow.facts;
        let mut sites = Vec::new();
        let mut callers = vec![Vec::new(); prog.procs()];
        let mut sources = Vec::new();
        let mut ops = Vec::with_capacity(prog.points());
        for (n, s) in prog.stmts.iter().enumerate() {
            ops.push(match *s {
                Stmt::Call { p, .. } => {
                    let base = sources.len();
                    sources.resize(base + f, 0);
                    for (d, row) in flow.call[n * f..][..f].iter().enumerate() {
                        for e in ones(*row) {
                            sources[base + e] |= 1 << d;
                        }
                    }
                    callers[p].push(sites.len());
                    sites.push(Site {
                        at: n,
                        callee: p,
                        entry: prog.entry[p],
                        exit: prog.exit[p],
                        back: flow.ret[n * f..][..f].iter().fold(0, |all, row| all | row),
                    });
                    Op::Call(sites.len() as u16 - 1)
                }
                Stmt::Ret { .. } => Op::Ret(prog.proc_of[n] as u16),
                _ => match prog.successors(n) {
                    (to, 2) => Op::Fork(to[0] as u16, to[1] as u16),
                    (to, _) => Op::Step(to[0] as u16),
                },
            });
        }
        Job {
            flow,
            ops,
            entries: prog.entry.clone(),
            sites,
            callers,
            sources,
        }
    }

    pub fn cells(&self) -> usize {
        self.ops.len() * self.flow.facts * self.flow.facts
    }
}

/// The facts of a row, ascending.
#[inline]
fn ones(mut row: u64) -> impl Iterator<Item = usize> {
    std::iter::from_fn(move || {
        let d = row.trailing_zeros() as usize;
        (row != 0).then(|| {
            row &= row - 1;
            d
        })
    })
}

/// As many runs as the settling of one at a step or fork may put last.
const ROOM: usize = 128;

/// Cells of one point and entry fact that wait one behind the other.
#[derive(Clone, Copy, Default)]
struct Run {
    /// The point and, in the last six bits, the entry fact.
    place: u32,
    facts: u64,
}

/// Where cells are found, with what changes at each one held apart from memory.
struct Front<'b> {
    records: &'b mut [Record],
    ring: &'b mut [Run],
    head: usize,
    tail: usize,
    found: u32,
}

impl<'b> Front<'b> {
    /// With room in the ring for what one cell may find.
    #[inline(always)]
    fn of(records: &'b mut [Record], waiting: &'b mut Runs, found: u32) -> Front<'b> {
        if !waiting.has_room() {
            waiting.grow();
        }
        Front {
            records,
            head: waiting.head,
            tail: waiting.tail,
            ring: &mut waiting.ring,
            found,
        }
    }

    /// Writes the records of a row of cells of one block, none of which is found, and puts the cells last: to the last run, if they go on
    /// from it. Both ways of putting are one, since which it is can hardly be foretold.
    #[inline(always)]
    fn put(&mut self, place: u32, block: Range<usize>, new: u64, kind: u32, first: usize, second: usize) {
        let block = &mut self.records[block];
        let mut left = new;
        loop {
            self.found += 1;
            block[left.trailing_zeros() as usize] = Record::new(self.found, kind, first as u32, second as u32);
            left &= left - 1;
            if left == 0 {
                break;
            }
        }
        let mask = self.ring.len() - 1;
        let last = self.ring[self.tail.wrapping_sub(1) & mask];
        let lowest = new & new.wrapping_neg();
        let goes_on = (self.head != self.tail) & (last.place == place) & (last.facts < lowest);
        let to = self.tail.wrapping_sub(goes_on as usize);
        self.ring[to & mask] = Run {
            place,
            facts: new | last.facts & (goes_on as u64).wrapping_neg(),
        };
        self.tail = to.wrapping_add(1);
    }
}

/// The row of waiting cells as runs in a ring, the oldest at `head`. At least `ROOM` places are free before a run is settled.
struct Runs {
    /// As many as a power of two.
    ring: Vec<Run>,
    head: usize,
    tail: usize,
}

impl Runs {
    fn none() -> Runs {
        Runs {
            ring: vec![Run::default(); 1 << 10],
            head: 0,
            tail: 0,
        }
    }

    fn at(&self, i: usize) -> usize {
        i & (self.ring.len() - 1)
    }

    fn has_room(&self) -> bool {
        self.ring.len() - self.tail.wrapping_sub(self.head) >= ROOM
    }

    #[cold]
    fn grow(&mut self) {
        let many = self.tail.wrapping_sub(self.head);
        let mut ring: Vec<Run> = (0..many)
            .map(|i| self.ring[self.at(self.head.wrapping_add(i))])
            .collect();
        ring.resize(2 * self.ring.len(), Run::default());
        self.ring = ring;
        self.head = 0;
        self.tail = many;
    }

    fn pop_front(&mut self) -> Option<Run> {
        if self.head == self.tail {
            return None;
        }
        let run = self.ring[self.at(self.head)];
        self.head = self.head.wrapping_add(1);
        Some(run)
    }

    /// Puts back what is left of the run that was taken from the front.
    fn put_back(&mut self, run: Run) {
        self.head = self.head.wrapping_sub(1);
        let at = self.at(self.head);
        self.ring[at] = run;
    }

    /// Takes the newest cell: its place and fact.
    fn pop_newest(&mut self) -> Option<Run> {
        if self.head == self.tail {
            return None;
        }
        let at = self.at(self.tail.wrapping_sub(1));
        let run = &mut self.ring[at];
        let fact = 1 << (63 - run.facts.leading_zeros());
        run.facts ^= fact;
        let taken = Run {
            place: run.place,
            facts: fact,
        };
        if run.facts == 0 {
            self.tail = self.tail.wrapping_sub(1);
        }
        Some(taken)
    }
}

/// What is known of the calls from the cells found at them and at the exits of the procedures that they call.
struct Links {
    /// Word i * F + b, for call i: what follows by the call from the found cells with b.
    entered: Vec<u64>,
    /// The same seen from the callee, word i * F + a: the b from whose found cells a follows by the call.
    origins: Vec<u64>,
    /// Word i * F + e: what follows by the return from the found cells with e at the callee's exit.
    summaries: Vec<u64>,
    /// Word i * F + y: some b for which the cell with b and y after the call is found.
    passed: Vec<u64>,
    /// For each procedure some e whose cell (entry, e, e) is found.
    begun: Vec<u64>,
}

impl Links {
    /// Notes cells that are found.
    #[inline(always)]
    fn note(&mut self, job: &Job, n: usize, a: usize, new: u64) {
        match job.ops[n] {
            Op::Call(i) => self.note_caller(job, i as usize, a, new),
            Op::Ret(p) => self.note_exit(job, p as usize, a, new),
            _ => {}
        }
    }

    #[inline(never)]
    fn note_caller(&mut self, job: &Job, i: usize, b: usize, new: u64) {
        let flow = job.flow;
        let f = flow.facts;
        let call = &flow.call[job.sites[i].at * f..][..f];
        let into = ones(new).fold(0, |all, d| all | call[d]);
        let fresh = into & !self.entered[i * f + b];
        self.entered[i * f + b] |= fresh;
        let origins = &mut self.origins[i * f..][..f];
        for a in ones(fresh) {
            origins[a] |= 1 << b;
        }
    }

    #[inline(never)]
    fn note_exit(&mut self, job: &Job, p: usize, e: usize, new: u64) {
        let flow = job.flow;
        let f = flow.facts;
        for &i in &job.callers[p] {
            let ret = &flow.ret[job.sites[i].at * f..][..f];
            self.summaries[i * f + e] |= ones(new).fold(0, |all, z| all | ret[z]);
        }
    }
}

pub struct Tuned<'a> {
    job: &'a Job<'a>,
    pub records: Vec<Record>,
    pub found: u32,
    pub settled: u32,
    waiting: Runs,
    /// Word n * F + a: the facts d with a found cell (n, a, d).
    rows: Vec<u64>,
    links: Links,
}

impl<'a> Tuned<'a> {
    /// Takes a memory of at least as many records as the job has cells, and clears so many.
    pub fn open(job: &'a Job<'a>, mut records: Vec<Record>) -> Tuned<'a> {
        records[..job.cells()].fill(Record::default());
        let f = job.flow.facts;
        let calls = job.sites.len() * f;
        Tuned {
            job,
            records,
            found: 0,
            settled: 0,
            waiting: Runs::none(),
            rows: vec![0; job.ops.len() * f],
            links: Links {
                entered: vec![0; calls],
                origins: vec![0; calls],
                summaries: vec![0; calls],
                passed: vec![0; calls],
                begun: vec![0; job.entries.len()],
            },
        }
    }

    /// Finds the cells of a row of facts, none of which is found.
    #[inline(always)]
    fn find(&mut self, n: usize, a: usize, new: u64, kind: u32, first: usize, second: usize) {
        let job = self.job;
        let f = job.flow.facts;
        let at = n * f + a;
        self.rows[at] |= new;
        let mut front = Front::of(&mut self.records, &mut self.waiting, self.found);
        front.put((n << 6 | a) as u32, at * f..at * f + f, new, kind, first, second);
        (self.found, self.waiting.tail) = (front.found, front.tail);
        self.links.note(job, n, a, new);
    }

    /// Gives whether the cell is new.
    pub fn sow(&mut self, p: usize, d: usize) -> bool {
        let n = self.job.entries[p];
        let new = self.rows[n * self.job.flow.facts + d] >> d & 1 == 0;
        if new {
            self.find(n, d, 1 << d, START, 0, 0);
        }
        new
    }

    /// Settles up to k cells and gives how many.
    pub fn work(&mut self, k: u32, end: End) -> u32 {
        let before = self.settled;
        match end {
            End::Oldest => self.oldest(k),
            End::Newest => self.newest(k),
        }
        self.settled - before
    }

    #[inline(never)]
    fn oldest(&mut self, k: u32) {
        let mut left = k;
        loop {
            left -= self.steps(left);
            if left == 0 {
                return;
            }
            let Some(run) = self.waiting.pop_front() else { return };
            let mut facts = run.facts;
            if facts.count_ones() > left {
                let mut rest = facts;
                for _ in 0..left {
                    rest &= rest - 1;
                }
                facts ^= rest;
                self.waiting.put_back(Run { facts: rest, ..run });
            }
            let many = facts.count_ones();
            left -= many;
            self.settled += many;
            self.settle(run.place as usize >> 6, run.place as usize & 63, facts);
        }
    }

    /// Settles the oldest runs as long as they are at steps and forks and no more than k cells, and gives how many cells.
    fn steps(&mut self, k: u32) -> u32 {
        let job = self.job;
        let f = job.flow.facts;
        let rows = &mut self.rows[..];
        let links = &mut self.links;
        let mut left = k;
        loop {
            let mut front = Front::of(&mut self.records, &mut self.waiting, self.found);
            let full = loop {
                if front.head == front.tail {
                    break false;
                }
                if front.ring.len() - front.tail.wrapping_sub(front.head) < ROOM {
                    break true;
                }
                let run = front.ring[front.head & (front.ring.len() - 1)];
                let (n, a) = (run.place as usize >> 6, run.place as usize & 63);
                let (m, k) = match job.ops[n] {
                    Op::Step(m) => (m as usize, None),
                    Op::Fork(m, k) => (m as usize, Some(k as usize)),
                    _ => break false,
                };
                let many = run.facts.count_ones();
                if many > left {
                    break false;
                }
                left -= many;
                front.head = front.head.wrapping_add(1);
                let step = &job.flow.step[n * f..][..f];
                let from = (n * f + a) * f;
                let to = m * f + a;
                let mut facts = run.facts;
                match k {
                    None => {
                        let before = rows[to];
                        let mut known = before;
                        loop {
                            let d = facts.trailing_zeros() as usize;
                            let new = step[d] & !known;
                            if new != 0 {
                                known |= new;
                                front.put((m << 6 | a) as u32, to * f..to * f + f, new, STEP, from + d, 0);
                            }
                            facts &= facts - 1;
                            if facts == 0 {
                                break;
                            }
                        }
                        rows[to] = known;
                        links.note(job, m, a, known & !before);
                    }
                    Some(k) => {
                        let other = k * f + a;
                        loop {
                            let d = facts.trailing_zeros() as usize;
                            for (m, to) in [(m, to), (k, other)] {
                                let new = step[d] & !rows[to];
                                if new != 0 {
                                    rows[to] |= new;
                                    front.put((m << 6 | a) as u32, to * f..to * f + f, new, STEP, from + d, 0);
                                    links.note(job, m, a, new);
                                }
                            }
                            facts &= facts - 1;
                            if facts == 0 {
                                break;
                            }
                        }
                    }
                }
            };
            (self.found, self.waiting.head, self.waiting.tail) = (front.found, front.head, front.tail);
            if !full {
                self.settled += k - left;
                return k - left;
            }
        }
    }

    #[inline(never)]
    fn newest(&mut self, k: u32) {
        for _ in 0..k {
            let Some(cell) = self.waiting.pop_newest() else { return };
            self.settled += 1;
            self.settle(cell.place as usize >> 6, cell.place as usize & 63, cell.facts);
        }
    }

    /// Settles the cells of a row of facts, ascending.
    fn settle(&mut self, n: usize, a: usize, facts: u64) {
        let job = self.job;
        let f = job.flow.facts;
        let block = (n * f + a) * f;
        match job.ops[n] {
            Op::Step(m) => {
                let m = m as usize;
                let step = &job.flow.step[n * f..][..f];
                for d in ones(facts) {
                    let new = step[d] & !self.rows[m * f + a];
                    if new != 0 {
                        self.find(m, a, new, STEP, block + d, 0);
                    }
                }
            }
            Op::Fork(m, k) => {
                let step = &job.flow.step[n * f..][..f];
                for d in ones(facts) {
                    for m in [m as usize, k as usize] {
                        let new = step[d] & !self.rows[m * f + a];
                        if new != 0 {
                            self.find(m, a, new, STEP, block + d, 0);
                        }
                    }
                }
            }
            Op::Call(i) => {
                for d in ones(facts) {
                    self.settle_call(i as usize, a, d);
                }
            }
            Op::Ret(p) => {
                for d in ones(facts) {
                    self.settle_ret(p as usize, a, d, block + d);
                }
            }
        }
    }

    #[inline(never)]
    fn settle_call(&mut self, i: usize, a: usize, d: usize) {
        let job = self.job;
        let f = job.flow.facts;
        let site = &job.sites[i];
        let n = site.at;
        let this = (n * f + a) * f + d;
        let after = (n + 1) * f + a;
        let new = job.flow.past[n * f + d] & !self.rows[after];
        if new != 0 {
            self.find(n + 1, a, new, PAST, this, 0);
        }
        let mut into = job.flow.call[n * f + d];
        if site.back & !self.rows[after] == 0 {
            // nothing can come back
            into &= !self.links.begun[site.callee];
        }
        for e in ones(into) {
            if self.links.begun[site.callee] >> e & 1 == 0 {
                self.links.begun[site.callee] |= 1 << e;
                if self.rows[site.entry * f + e] >> e & 1 == 0 {
                    self.find(site.entry, e, 1 << e, CALL, this, 0);
                }
            }
            // the row at the exit is read again each time: it may be the row after the call
            let exit = site.exit * f + e;
            let mut tried = 0;
            while self.links.summaries[i * f + e] & !self.rows[after] != 0 {
                let ends = self.rows[exit] & !tried;
                if ends == 0 {
                    break;
                }
                let z = ends.trailing_zeros() as usize;
                tried = u64::MAX >> (63 - z);
                let new = job.flow.ret[n * f + z] & !self.rows[after];
                if new != 0 {
                    self.find(n + 1, a, new, RETURN, this, exit * f + z);
                }
            }
        }
    }

    #[inline(never)]
    fn settle_ret(&mut self, p: usize, a: usize, d: usize, this: usize) {
        let job = self.job;
        let f = job.flow.facts;
        for &i in &job.callers[p] {
            let c = job.sites[i].at;
            let back = job.flow.ret[c * f + d];
            let mut origins = self.links.origins[i * f + a];
            if back == 0 || origins == 0 {
                continue;
            }
            let passed = &self.links.passed[i * f..][..f];
            origins &= !ones(back).fold(u64::MAX, |all, y| all & passed[y]);
            if origins == 0 {
                continue;
            }
            for b in ones(origins) {
                let new = back & !self.rows[(c + 1) * f + b];
                if new != 0 {
                    let caller = c * f + b;
                    let x = (self.rows[caller] & job.sources[i * f + a]).trailing_zeros() as usize;
                    self.find(c + 1, b, new, RETURN, caller * f + x, this);
                }
            }
            let passed = &mut self.links.passed[i * f..][..f];
            for y in ones(back) {
                passed[y] |= origins;
            }
        }
    }

    pub fn waiting(&self) -> u32 {
        self.found - self.settled
    }
}

/// Settles every cell that follows from starts, in a memory, and gives the records, how many are found and how many settled.
pub fn tabulate_tuned(job: &Job, memory: Vec<Record>, starts: &[(usize, usize)], end: End) -> (Vec<Record>, u32, u32) {
    let mut t = Tuned::open(job, memory);
    for &(p, d) in starts {
        t.sow(p, d);
    }
    t.work(u32::MAX, end);
    (t.records, t.found, t.settled)
}
