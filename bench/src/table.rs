//! An exact simulation of the table: its records, the order of finding, the tallies, reports and trails, so that each can be compared number
//! for number. It is slow and plain on purpose.

use std::collections::VecDeque;

use crate::listing::{Program, Stmt};
use crate::path::{encode, Word};
use crate::problem::{Kind, Relation};

pub const START: u32 = 1;
pub const STEP: u32 = 2;
pub const PAST: u32 = 3;
pub const CALL: u32 = 4;
pub const RETURN: u32 = 5;

#[derive(Clone, Copy, Debug, Default, PartialEq, Eq)]
pub struct Record {
    pub rank: u32,
    pub kind: u32,
    pub first: u32,
    pub second: u32,
}

#[derive(Clone, Copy, Debug, PartialEq, Eq)]
pub enum End {
    Oldest,
    Newest,
}

#[derive(Clone, Copy, Debug, PartialEq, Eq)]
pub enum Stage {
    Open,
    Closed,
    /// A report is begun: the next place on its page, the next pair to look at (as n * F + d), and how many lines there are.
    Report {
        place: usize,
        pair: usize,
        lines: usize,
    },
}

/// Why a call gave nothing: it was refused with a number, or it is not put to a table in this state.
#[derive(Clone, Copy, Debug, PartialEq, Eq)]
pub enum Nothing {
    Refused(u32),
    NotPut,
}

use Nothing::{NotPut, Refused};

pub struct Table {
    pub points: usize,
    pub facts: usize,
    pub records: Vec<Record>,
    pub waiting: VecDeque<usize>,
    pub found: u32,
    pub settled: u32,
    pub stage: Stage,
    pub accepted: Vec<(usize, usize)>,
}

impl Table {
    /// Opens a table in a memory of `memory` records.
    pub fn open(memory: usize, points: usize, facts: usize) -> Result<Table, Nothing> {
        let cells = points * facts * facts;
        if memory < cells {
            return Err(Refused(11));
        }
        Ok(Table {
            points,
            facts,
            records: vec![Record::default(); cells],
            waiting: VecDeque::new(),
            found: 0,
            settled: 0,
            stage: Stage::Open,
            accepted: vec![],
        })
    }

    pub fn cell(&self, n: usize, a: usize, d: usize) -> usize {
        (n * self.facts + a) * self.facts + d
    }

    pub fn is_found(&self, n: usize, a: usize, d: usize) -> bool {
        self.records[self.cell(n, a, d)].rank != 0
    }

    fn find(&mut self, cell: usize, kind: u32, first: usize, second: usize) -> bool {
        if self.records[cell].rank != 0 {
            return false;
        }
        self.found += 1;
        self.records[cell] = Record {
            rank: self.found,
            kind,
            first: first as u32,
            second: second as u32,
        };
        self.waiting.push_back(cell);
        true
    }

    pub fn sow<R: Relation>(&mut self, prog: &Program, r: &R, p: usize, d: usize) -> Result<u32, Nothing> {
        if self.stage != Stage::Open {
            return Err(NotPut);
        }
        if prog.points() != self.points || r.facts() != self.facts {
            return Err(Refused(12));
        }
        if p >= prog.procs() || d >= self.facts {
            return Err(Refused(13));
        }
        if !self.accepted.contains(&(p, d)) {
            self.accepted.push((p, d));
        }
        let cell = self.cell(prog.entry[p], d, d);
        Ok(self.find(cell, START, 0, 0) as u32)
    }

    pub fn work<R: Relation>(&mut self, prog: &Program, r: &R, k: u32, end: End) -> Result<u32, Nothing> {
        if self.stage != Stage::Open {
            return Err(NotPut);
        }
        if prog.points() != self.points || r.facts() != self.facts {
            return Err(Refused(12));
        }
        let mut done = 0;
        while done < k {
            let next = match end {
                End::Oldest => self.waiting.pop_front(),
                End::Newest => self.waiting.pop_back(),
            };
            let Some(cell) = next else { break };
            self.settle(prog, r, cell);
            self.settled += 1;
            done += 1;
        }
        Ok(done)
    }

    fn settle<R: Relation>(&mut self, prog: &Program, r: &R, this: usize) {
        let f = self.facts;
        let (n, a, d) = (this / (f * f), this / f % f, this % f);
        match prog.stmts[n] {
            Stmt::Call { p, .. } => {
                for e in 0..f {
                    if r.follows(prog, Kind::Past, n, d, e) {
                        self.find(self.cell(n + 1, a, e), PAST, this, 0);
                    }
                }
                for e in 0..f {
                    if !r.follows(prog, Kind::Call, n, d, e) {
                        continue;
                    }
                    self.find(self.cell(prog.entry[p], e, e), CALL, this, 0);
                    for z in 0..f {
                        let exit = self.cell(prog.exit[p], e, z);
                        if self.records[exit].rank == 0 {
                            continue;
                        }
                        for y in 0..f {
                            if r.follows(prog, Kind::Return, n, z, y) {
                                self.find(self.cell(n + 1, a, y), RETURN, this, exit);
                            }
                        }
                    }
                }
            }
            Stmt::Ret { .. } => {
                for &c in &prog.calls_of[prog.proc_of[n]] {
                    for b in 0..f {
                        for x in 0..f {
                            let from = self.cell(c, b, x);
                            if self.records[from].rank == 0 || !r.follows(prog, Kind::Call, c, x, a) {
                                continue;
                            }
                            for y in 0..f {
                                if r.follows(prog, Kind::Return, c, d, y) {
                                    self.find(self.cell(c + 1, b, y), RETURN, from, this);
                                }
                            }
                        }
                    }
                }
            }
            _ => {
                let (to, many) = prog.successors(n);
                for &m in &to[..many] {
                    for e in 0..f {
                        if r.follows(prog, Kind::Step, n, d, e) {
                            self.find(self.cell(m, a, e), STEP, this, 0);
                        }
                    }
                }
            }
        }
    }

    pub fn close(&mut self) -> Result<(), Nothing> {
        if self.stage != Stage::Open {
            return Err(NotPut);
        }
        if !self.waiting.is_empty() {
            return Err(Refused(14));
        }
        self.stage = Stage::Closed;
        Ok(())
    }

    pub fn reopen(&mut self) -> Result<(), Nothing> {
        if self.stage != Stage::Closed {
            return Err(NotPut);
        }
        self.stage = Stage::Open;
        Ok(())
    }

    fn listed(&self, pair: usize) -> bool {
        let (n, d) = (pair / self.facts, pair % self.facts);
        (0..self.facts).any(|a| self.is_found(n, a, d))
    }

    fn next_pair(&self, from: usize) -> Option<usize> {
        (from..self.points * self.facts).find(|p| self.listed(*p))
    }

    pub fn begin(&mut self) -> Result<(), Nothing> {
        if self.stage != Stage::Closed {
            return Err(NotPut);
        }
        self.stage = Stage::Report {
            place: 0,
            pair: 0,
            lines: 0,
        };
        Ok(())
    }

    pub fn line(&mut self, page: &mut [u8]) -> Result<u32, Nothing> {
        let Stage::Report { place, pair, lines } = self.stage else {
            return Err(NotPut);
        };
        let Some(p) = self.next_pair(pair) else { return Ok(0) };
        let text = format!("{} {}\n", p / self.facts, p % self.facts);
        let place = write_at(page, place, &text)?;
        self.stage = Stage::Report {
            place,
            pair: p + 1,
            lines: lines + 1,
        };
        Ok(1)
    }

    /// Gives the place after the foot.
    pub fn foot(&mut self, page: &mut [u8]) -> Result<usize, Nothing> {
        let Stage::Report { place, pair, lines } = self.stage else {
            return Err(NotPut);
        };
        if self.next_pair(pair).is_some() {
            return Err(Refused(16));
        }
        let end = write_at(page, place, &format!("pairs {} cells {}\n", lines, self.settled))?;
        self.stage = Stage::Closed;
        Ok(end)
    }

    pub fn abandon(&mut self) -> Result<(), Nothing> {
        let Stage::Report { .. } = self.stage else {
            return Err(NotPut);
        };
        self.stage = Stage::Closed;
        Ok(())
    }

    /// A whole report: line by line, then the foot. Where something does not fit the report is abandoned.
    pub fn report(&mut self, page: usize) -> Result<Vec<u8>, Nothing> {
        self.begin()?;
        let mut page = vec![0u8; page];
        let end = loop {
            match self.line(&mut page) {
                Ok(0) => break self.foot(&mut page),
                Ok(_) => {}
                Err(e) => break Err(e),
            }
        };
        match end {
            Ok(end) => {
                page.truncate(end);
                Ok(page)
            }
            Err(e) => {
                self.abandon()?;
                Err(e)
            }
        }
    }

    /// The words of the path that led to a pair, in a memory of `words` words and one of `deep` open calls.
    pub fn trail<R: Relation>(
        &self,
        prog: &Program,
        _r: &R,
        n: usize,
        d: usize,
        words: usize,
        deep: usize,
    ) -> Result<Vec<u32>, Nothing> {
        if self.stage != Stage::Closed {
            return Err(NotPut);
        }
        if n >= self.points || d >= self.facts {
            return Err(Refused(13));
        }
        let Some(a) = (0..self.facts).find(|a| self.is_found(n, *a, d)) else {
            return Err(Refused(15));
        };
        let f = self.facts;
        let mut back: Vec<u32> = Vec::new();
        let mut walked: Vec<usize> = Vec::new();
        let mut at = self.cell(n, a, d);
        loop {
            if back.len() == words {
                return Err(Refused(17));
            }
            let rec = self.records[at];
            let mut kind = rec.kind;
            let here = (at / (f * f), at % f);
            let next = match rec.kind {
                STEP | PAST => Some(rec.first as usize),
                RETURN => {
                    if walked.len() == deep {
                        return Err(Refused(17));
                    }
                    walked.push(at);
                    Some(rec.second as usize)
                }
                START | CALL => match walked.pop() {
                    Some(frame) => {
                        kind = CALL;
                        Some(self.records[frame].first as usize)
                    }
                    None if rec.kind == CALL => Some(rec.first as usize),
                    None => None,
                },
                _ => unreachable!("a cell that is not found, on a trail"),
            };
            debug_assert!(prog.points() == self.points);
            back.push(encode(Word {
                kind,
                point: here.0,
                fact: here.1,
            }));
            match next {
                Some(cell) => at = cell,
                None => break,
            }
        }
        back.reverse();
        Ok(back)
    }

    /// For each point the facts with a found cell.
    pub fn pairs(&self) -> Vec<u64> {
        let f = self.facts;
        let mut pairs = vec![0u64; self.points];
        for (i, r) in self.records.iter().enumerate() {
            if r.rank != 0 {
                pairs[i / (f * f)] |= 1 << (i % f);
            }
        }
        pairs
    }
}

fn write_at(page: &mut [u8], place: usize, text: &str) -> Result<usize, Nothing> {
    let end = place + text.len();
    if end > page.len() {
        return Err(Refused(17));
    }
    page[place..end].copy_from_slice(text.as_bytes());
    Ok(end)
}
