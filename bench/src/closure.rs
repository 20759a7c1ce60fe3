//! Two naive ways, straight from the definition of call-matched paths, for small programs.
//!
//! `reached` computes for every entry fact of every procedure what paths that close each call they open arrive at, by going over everything
//! again until nothing is new; then which entries are reached. `pairs_by_configurations` walks the paths themselves, each with its open calls.

use std::collections::HashSet;

use crate::listing::{Program, Stmt};
use crate::problem::{Kind, Relation};

/// The reached cells: (n, a, d) is at (n * F + a) * F + d.
pub fn reached<R: Relation>(prog: &Program, r: &R, starts: &[(usize, usize)]) -> Vec<bool> {
    let f = r.facts();
    let n = prog.points();
    let at = |n: usize, a: usize, d: usize| (n * f + a) * f + d;
    // level[(n, a, d)]: a path from the entry with a, which closes each call it opens, ends at (n, d)
    let mut level = vec![false; n * f * f];
    for &e in &prog.entry {
        for a in 0..f {
            level[at(e, a, a)] = true;
        }
    }
    loop {
        let mut grew = false;
        let mut add = |level: &mut Vec<bool>, i: usize| {
            if !level[i] {
                level[i] = true;
                grew = true;
            }
        };
        for m in 0..n {
            for a in 0..f {
                for d in 0..f {
                    if !level[at(m, a, d)] {
                        continue;
                    }
                    let (to, many) = prog.successors(m);
                    for &t in &to[..many] {
                        for e in 0..f {
                            if r.follows(prog, Kind::Step, m, d, e) {
                                add(&mut level, at(t, a, e));
                            }
                        }
                    }
                    if let Stmt::Call { p, .. } = prog.stmts[m] {
                        for e in 0..f {
                            if r.follows(prog, Kind::Past, m, d, e) {
                                add(&mut level, at(m + 1, a, e));
                            }
                        }
                        for e in 0..f {
                            if !r.follows(prog, Kind::Call, m, d, e) {
                                continue;
                            }
                            for z in 0..f {
                                if !level[at(prog.exit[p], e, z)] {
                                    continue;
                                }
                                for y in 0..f {
                                    if r.follows(prog, Kind::Return, m, z, y) {
                                        add(&mut level, at(m + 1, a, y));
                                    }
                                }
                            }
                        }
                    }
                }
            }
        }
        if !grew {
            break;
        }
    }
    // the entries that are starts or are arrived at by a call
    let mut entered = vec![vec![false; f]; prog.procs()];
    for &(p, d) in starts {
        entered[p][d] = true;
    }
    loop {
        let mut grew = false;
        for m in 0..n {
            if let Stmt::Call { p, .. } = prog.stmts[m] {
                for a in 0..f {
                    if !entered[prog.proc_of[m]][a] {
                        continue;
                    }
                    for d in 0..f {
                        for e in 0..f {
                            if level[at(m, a, d)] && r.follows(prog, Kind::Call, m, d, e) && !entered[p][e] {
                                entered[p][e] = true;
                                grew = true;
                            }
                        }
                    }
                }
            }
        }
        if !grew {
            break;
        }
    }
    let mut cells = vec![false; n * f * f];
    for m in 0..n {
        for a in 0..f {
            for d in 0..f {
                cells[at(m, a, d)] = entered[prog.proc_of[m]][a] && level[at(m, a, d)];
            }
        }
    }
    cells
}

pub fn pairs_of_cells(f: usize, cells: &[bool]) -> Vec<u64> {
    let mut pairs = vec![0u64; cells.len() / (f * f)];
    for (i, yes) in cells.iter().enumerate() {
        if *yes {
            pairs[i / (f * f)] |= 1 << (i % f);
        }
    }
    pairs
}

/// All ends of call-matched paths with at most `deep` open calls, as long as there are at most `most` configurations. The flag tells whether
/// nothing was left out: the pairs are then exactly the reached ones, otherwise some of them.
pub fn pairs_by_configurations<R: Relation>(
    prog: &Program,
    r: &R,
    starts: &[(usize, usize)],
    deep: usize,
    most: usize,
) -> (Vec<u64>, bool) {
    type Place = (usize, usize, Vec<usize>);
    let f = r.facts();
    let mut seen: HashSet<Place> = HashSet::new();
    let mut todo: Vec<Place> = Vec::new();
    let mut whole = true;
    for &(p, d) in starts {
        let s = (prog.entry[p], d, vec![]);
        if seen.insert(s.clone()) {
            todo.push(s);
        }
    }
    while let Some((n, d, open)) = todo.pop() {
        let mut next: Vec<Place> = Vec::new();
        for e in 0..f {
            let (to, many) = prog.successors(n);
            for &m in &to[..many] {
                if r.follows(prog, Kind::Step, n, d, e) {
                    next.push((m, e, open.clone()));
                }
            }
            match prog.stmts[n] {
                Stmt::Call { p, .. } => {
                    if r.follows(prog, Kind::Past, n, d, e) {
                        next.push((n + 1, e, open.clone()));
                    }
                    if r.follows(prog, Kind::Call, n, d, e) {
                        if open.len() < deep {
                            let mut deeper = open.clone();
                            deeper.push(n);
                            next.push((prog.entry[p], e, deeper));
                        } else {
                            whole = false;
                        }
                    }
                }
                Stmt::Ret { .. } => {
                    if let Some((&c, rest)) = open.split_last() {
                        if r.follows(prog, Kind::Return, c, d, e) {
                            next.push((c + 1, e, rest.to_vec()));
                        }
                    }
                }
                _ => {}
            }
        }
        for s in next {
            if seen.len() >= most {
                whole = false;
                break;
            }
            if seen.insert(s.clone()) {
                todo.push(s);
            }
        }
    }
    let mut pairs = vec![0u64; prog.points()];
    for (n, d, _) in &seen {
        pairs[*n] |= 1 << d;
    }
    (pairs, whole)
}
