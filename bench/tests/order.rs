//! The order of finding, written a second time in another way: all that may be found from a cell is listed with a key that says its turn, sorted,
//! and taken in that order. The simulation must have the same records on random programs and relations.

use bench::gen;
use bench::listing::{read, Program, Stmt};
use bench::problem::{Kind, Relation};
use bench::rng::Rng;
use bench::table::{End, Record, Table};

/// What may be found, and when: only if `needs` is found at its turn.
struct Lead {
    turn: Vec<usize>,
    needs: Option<usize>,
    cell: usize,
    kind: u32,
    first: usize,
    second: usize,
}

fn leads<R: Relation>(prog: &Program, r: &R, this: usize) -> Vec<Lead> {
    let f = r.facts();
    let cell = |n: usize, a: usize, d: usize| (n * f + a) * f + d;
    let (n, a, d) = (this / (f * f), (this / f) % f, this % f);
    let all: Vec<usize> = (0..f).collect();
    let from = |kind: Kind, at: usize, of: usize| -> Vec<usize> {
        all.iter()
            .copied()
            .filter(|e| r.follows(prog, kind, at, of, *e))
            .collect()
    };
    let mut out = vec![];
    let mut add = |turn: Vec<usize>, needs, cell, kind, first, second| {
        out.push(Lead {
            turn,
            needs,
            cell,
            kind,
            first,
            second,
        })
    };
    match prog.stmts[n] {
        Stmt::Ret { .. } => {
            let p = prog.proc_of[n];
            for c in 0..prog.points() {
                if !matches!(prog.stmts[c], Stmt::Call { p: q, .. } if q == p) {
                    continue;
                }
                for y in from(Kind::Return, c, d) {
                    for &x in &all {
                        for &b in &all {
                            if from(Kind::Call, c, x).contains(&a) {
                                let caller = cell(c, b, x);
                                add(vec![c, b, x, y], Some(caller), cell(c + 1, b, y), 5, caller, this);
                            }
                        }
                    }
                }
            }
        }
        Stmt::Call { p, .. } => {
            for e in from(Kind::Call, n, d) {
                add(vec![1, e, 0], None, cell(prog.entry[p], e, e), 4, this, 0);
                for &z in &all {
                    let exit = cell(prog.exit[p], e, z);
                    for y in from(Kind::Return, n, z) {
                        add(vec![1, e, 1, z, y], Some(exit), cell(n + 1, a, y), 5, this, exit);
                    }
                }
            }
            for e in from(Kind::Past, n, d) {
                add(vec![0, e], None, cell(n + 1, a, e), 3, this, 0);
            }
        }
        Stmt::Goto { k } => {
            for e in from(Kind::Step, n, d) {
                add(vec![0, e], None, cell(k, a, e), 2, this, 0);
            }
        }
        Stmt::Test { k, .. } => {
            for e in from(Kind::Step, n, d) {
                add(vec![1, e], None, cell(k, a, e), 2, this, 0);
                add(vec![0, e], None, cell(n + 1, a, e), 2, this, 0);
            }
        }
        _ => {
            for e in from(Kind::Step, n, d) {
                add(vec![e], None, cell(n + 1, a, e), 2, this, 0);
            }
        }
    }
    out.sort_by(|x, y| x.turn.cmp(&y.turn));
    out
}

fn once<R: Relation>(rng: &mut Rng, prog: &Program, r: &R) -> usize {
    let f = r.facts();
    let cells = prog.points() * f * f;
    let mut t = Table::open(cells, prog.points(), f).unwrap();
    let mut records = vec![Record::default(); cells];
    let mut found = 0;
    let mut row: Vec<usize> = vec![]; // the cells that wait, the oldest first
    for _ in 0..rng.range(1, 12) {
        let (p, d) = (rng.below(prog.procs()), rng.below(f));
        let cell = (prog.entry[p] * f + d) * f + d;
        let new = records[cell].rank == 0;
        if new {
            found += 1;
            records[cell] = Record {
                rank: found,
                kind: 1,
                first: 0,
                second: 0,
            };
            row.push(cell);
        }
        assert_eq!(t.sow(prog, r, p, d), Ok(new as u32));
        let end = if rng.one_in(2) { End::Oldest } else { End::Newest };
        let k = rng.below(40);
        let mut done = 0;
        while done < k && !row.is_empty() {
            let this = if end == End::Oldest {
                row.remove(0)
            } else {
                row.pop().unwrap()
            };
            for l in leads(prog, r, this) {
                if l.needs.is_some_and(|c| records[c].rank == 0) || records[l.cell].rank != 0 {
                    continue;
                }
                found += 1;
                records[l.cell] = Record {
                    rank: found,
                    kind: l.kind,
                    first: l.first as u32,
                    second: l.second as u32,
                };
                row.push(l.cell);
            }
            done += 1;
        }
        assert_eq!(t.work(prog, r, k as u32, end), Ok(done as u32));
        assert_eq!(t.records, records);
        assert!(t.waiting.iter().eq(&row));
    }
    found as usize
}

#[test]
fn the_order_written_twice() {
    let mut found = 0;
    for i in 0..4000 {
        let mut rng = Rng::of_case(77, 30, i);
        let shape = gen::shape(&mut rng, 24, 6);
        let (text, given) = match i % 30 {
            7 => gen::deep(&mut rng),
            13 => gen::long(&mut rng),
            _ => {
                let text = gen::listing(&mut rng, &shape);
                let facts = rng.range(1, 6);
                let points = read(&text).unwrap().points();
                let given = gen::relation(&mut rng, points, facts);
                (text, given)
            }
        };
        let prog = read(&text).unwrap();
        if given.facts <= 12 {
            found += once(&mut rng, &prog, &given);
        }
    }
    assert!(found > 50_000, "{found} cells found");
}
