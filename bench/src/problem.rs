//! Problems: facts and a relation. Two forms are kept apart on purpose: the relation as a yes or no (`Relation`), which the simulation, the
//! closure and the path checker ask, and flow functions as rows of bits (`Flow`), on which the worklist solvers run. For unset and raw the
//! two are written separately, the one backward (from what does a fact follow), the other forward (what follows from a fact).

use crate::listing::{Program, Stmt};

#[derive(Clone, Copy, Debug, PartialEq, Eq)]
pub enum Kind {
    Step,
    Past,
    Call,
    Return,
}

pub const KINDS: [Kind; 4] = [Kind::Step, Kind::Past, Kind::Call, Kind::Return];

/// Does the statement at n have this kind of step?
pub fn has(prog: &Program, kind: Kind, n: usize) -> bool {
    match prog.stmts[n] {
        Stmt::Call { .. } => kind != Kind::Step,
        Stmt::Ret { .. } => false,
        _ => kind == Kind::Step,
    }
}

pub trait Relation {
    fn facts(&self) -> usize;
    /// Does e follow from d, over the step of this kind at point n (for a return, n is the call's)?
    fn follows(&self, prog: &Program, kind: Kind, n: usize, d: usize, e: usize) -> bool;
}

/// A relation given as tables: row (n, kind, d) has bit e where e follows from d.
#[derive(Clone, Debug, PartialEq, Eq)]
pub struct Given {
    pub facts: usize,
    pub rows: Vec<u64>,
}

impl Given {
    pub fn index(&self, n: usize, kind: Kind, d: usize) -> usize {
        (n * 4 + kind as usize) * self.facts + d
    }

    /// For each point, for each kind (step, past, call, return), F rows of 8 bytes, little endian.
    pub fn bytes(&self) -> Vec<u8> {
        self.rows.iter().flat_map(|r| r.to_le_bytes()).collect()
    }

    pub fn from_bytes(facts: usize, points: usize, bytes: &[u8]) -> Option<Given> {
        if !(1..=64).contains(&facts) || bytes.len() != points * 4 * facts * 8 {
            return None;
        }
        let rows = bytes
            .chunks(8)
            .map(|c| u64::from_le_bytes(c.try_into().unwrap()))
            .collect();
        Some(Given { facts, rows })
    }

    /// The tables of any relation.
    pub fn of(prog: &Program, r: &dyn Relation) -> Given {
        let facts = r.facts();
        let mut rows = Vec::new();
        for n in 0..prog.points() {
            for kind in KINDS {
                for d in 0..facts {
                    let mut row = 0;
                    for e in 0..facts {
                        if r.follows(prog, kind, n, d, e) {
                            row |= 1u64 << e;
                        }
                    }
                    rows.push(row);
                }
            }
        }
        Given { facts, rows }
    }
}

impl Relation for Given {
    fn facts(&self) -> usize {
        self.facts
    }

    fn follows(&self, prog: &Program, kind: Kind, n: usize, d: usize, e: usize) -> bool {
        has(prog, kind, n) && d < self.facts && e < self.facts && self.rows[self.index(n, kind, d)] >> e & 1 == 1
    }
}

/// Problems 1 and 2: fact c + 1 says that cell c may be unset, or may hold a raw reading.
#[derive(Clone, Copy, Debug, PartialEq, Eq)]
pub enum Which {
    Unset,
    Raw,
}

#[derive(Clone, Copy, Debug)]
pub struct Cells {
    pub which: Which,
    pub globals: usize,
    pub locals: usize,
}

impl Cells {
    pub fn of(which: Which, prog: &Program) -> Cells {
        Cells {
            which,
            globals: prog.globals,
            locals: prog.locals,
        }
    }

    /// The default starts.
    pub fn starts(&self) -> Vec<(usize, usize)> {
        match self.which {
            Which::Unset => (0..self.facts()).map(|d| (0, d)).collect(),
            Which::Raw => vec![(0, 0)],
        }
    }

    /// From which facts does the fact of cell `c` follow?
    fn origins(&self, prog: &Program, kind: Kind, n: usize, c: usize) -> Vec<usize> {
        let unset = self.which == Which::Unset;
        let global = c < self.globals;
        let own = vec![c + 1];
        match (kind, prog.stmts[n]) {
            (Kind::Step, Stmt::Set { d }) if d == c => vec![],
            (Kind::Step, Stmt::Read { d }) if d == c => {
                if unset {
                    vec![]
                } else {
                    vec![0]
                }
            }
            (Kind::Step, Stmt::Move { d, s }) if d == c => vec![s + 1],
            (Kind::Step, Stmt::Trim { d, s }) if d == c => {
                if unset {
                    vec![s + 1]
                } else {
                    vec![]
                }
            }
            (Kind::Step, Stmt::Add { d, s, t }) if d == c => vec![s + 1, t + 1],
            (Kind::Step, _) => own,
            (Kind::Past, Stmt::Call { d, .. }) => {
                if global || c == d {
                    vec![]
                } else {
                    own
                }
            }
            (Kind::Call, Stmt::Call { s, .. }) => {
                if global {
                    own
                } else if c == self.globals {
                    vec![s + 1]
                } else if unset {
                    vec![0]
                } else {
                    vec![]
                }
            }
            (Kind::Return, Stmt::Call { d, .. }) => {
                if c == d {
                    vec![prog.ret_cell_of_call(n).unwrap() + 1]
                } else if global {
                    own
                } else {
                    vec![]
                }
            }
            _ => vec![],
        }
    }
}

impl Relation for Cells {
    fn facts(&self) -> usize {
        self.globals + self.locals + 1
    }

    fn follows(&self, prog: &Program, kind: Kind, n: usize, d: usize, e: usize) -> bool {
        if !has(prog, kind, n) || d >= self.facts() || e >= self.facts() {
            return false;
        }
        if e == 0 {
            return d == 0;
        }
        self.origins(prog, kind, n, e - 1).contains(&d)
    }
}

/// Flow functions: for each kind, row n * F + d has the facts that follow from d at n.
pub struct Flow {
    pub facts: usize,
    pub step: Vec<u64>,
    pub past: Vec<u64>,
    pub call: Vec<u64>,
    pub ret: Vec<u64>,
}

impl Flow {
    pub fn given(prog: &Program, g: &Given) -> Flow {
        let f = g.facts;
        let all = if f == 64 { u64::MAX } else { (1 << f) - 1 };
        let mut flow = Flow {
            facts: f,
            step: vec![],
            past: vec![],
            call: vec![],
            ret: vec![],
        };
        for (n, s) in prog.stmts.iter().enumerate() {
            let base = n * 4 * f;
            let is_call = matches!(s, Stmt::Call { .. });
            let steps = !is_call && !matches!(s, Stmt::Ret { .. });
            let take = |k: usize, yes: bool| {
                let at = base + k * f;
                g.rows[at..at + f].iter().map(move |r| if yes { r & all } else { 0 })
            };
            flow.step.extend(take(0, steps));
            flow.past.extend(take(1, is_call));
            flow.call.extend(take(2, is_call));
            flow.ret.extend(take(3, is_call));
        }
        flow
    }

    pub fn cells(prog: &Program, which: Which) -> Flow {
        let (g, l) = (prog.globals, prog.locals);
        let f = g + l + 1;
        let raw = which == Which::Raw;
        let bit = |c: usize| 1u64 << (c + 1);
        let size = prog.points() * f;
        let mut flow = Flow {
            facts: f,
            step: vec![0; size],
            past: vec![0; size],
            call: vec![0; size],
            ret: vec![0; size],
        };
        for (n, s) in prog.stmts.iter().enumerate() {
            let at = n * f;
            match *s {
                Stmt::Ret { .. } => {}
                Stmt::Call { d, s, .. } => {
                    let v = prog.ret_cell_of_call(n).unwrap();
                    flow.past[at] = 1;
                    flow.call[at] = 1;
                    flow.ret[at] = 1;
                    for c in 0..g + l {
                        let row = at + c + 1;
                        if c < g {
                            flow.call[row] |= bit(c);
                            if c != d {
                                flow.ret[row] |= bit(c);
                            }
                        } else if c != d {
                            flow.past[row] |= bit(c);
                        }
                    }
                    flow.call[at + s + 1] |= bit(g);
                    flow.ret[at + v + 1] |= bit(d);
                    if !raw {
                        for i in 1..l {
                            flow.call[at] |= bit(g + i);
                        }
                    }
                }
                _ => {
                    flow.step[at] = 1;
                    for c in 0..g + l {
                        flow.step[at + c + 1] = bit(c);
                    }
                    // what is written is lost, and comes from its sources
                    let (written, sources) = match *s {
                        Stmt::Set { d } | Stmt::Read { d } => (Some(d), vec![]),
                        Stmt::Move { d, s } => (Some(d), vec![s]),
                        Stmt::Trim { d, s } => (Some(d), if raw { vec![] } else { vec![s] }),
                        Stmt::Add { d, s, t } => (Some(d), vec![s, t]),
                        _ => (None, vec![]),
                    };
                    if let Some(d) = written {
                        flow.step[at + d + 1] = 0;
                        for c in sources {
                            flow.step[at + c + 1] |= bit(d);
                        }
                    }
                    if let (Stmt::Read { d }, true) = (*s, raw) {
                        flow.step[at] |= bit(d);
                    }
                }
            }
        }
        flow
    }
}
