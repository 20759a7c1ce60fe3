//! Worked cases, each computed by hand or told by the rules.

use bench::closure::{pairs_of_cells, reached};
use bench::listing::{read, No, Program, Stmt};
use bench::path::{check, decode};
use bench::problem::{Cells, Flow, Given, Kind, Relation, Which};
use bench::sheet::sheet;
use bench::solve::{tabulate, tabulate_batched};
use bench::table::{End, Nothing, Record, Table};
use bench::verified::{Library, Stub};
use bench::wire::{words, Call};

const A: &str = "cells 1 2\nread l0\ncall g0 1 l0\nsend g0\nret g0\ntrim l1 l0\nret l1\n";
const B: &str = "cells 0 2\nread l0\nset l1\ncall l0 1 l0\ncall l1 1 l1\nret l1\nret l0\n";
const C: &str = "cells 1 1\nadd l0 g0 l0\nret l0\n";

fn no(question: u32, place: u32) -> No {
    No { question, place }
}

fn refusal(text: &str) -> Option<No> {
    read(text.as_bytes()).err()
}

fn list(pairs: &[u64]) -> Vec<Vec<usize>> {
    pairs
        .iter()
        .map(|w| (0..64).filter(|d| w >> d & 1 == 1).collect())
        .collect()
}

/// The pairs and the number of cells, by every solver, which must agree.
fn solve(text: &str, which: Which) -> (Vec<Vec<usize>>, usize) {
    let prog = read(text.as_bytes()).unwrap();
    let r = Cells::of(which, &prog);
    let flow = Flow::cells(&prog, which);
    let edges = tabulate(&prog, &flow, &r.starts());
    assert_eq!(edges.path, tabulate_batched(&prog, &flow, &r.starts()).path);
    let cells = reached(&prog, &r, &r.starts());
    assert_eq!(edges.pairs(), pairs_of_cells(r.facts(), &cells));
    assert_eq!(edges.count(), cells.iter().filter(|c| **c).count());
    let t = settled(&prog, &r);
    assert_eq!(t.pairs(), edges.pairs());
    assert_eq!(t.settled as usize, edges.count());
    (list(&edges.pairs()), edges.count())
}

fn settled(prog: &Program, r: &Cells) -> Table {
    let f = r.facts();
    let mut t = Table::open(prog.points() * f * f, prog.points(), f).unwrap();
    for (p, d) in r.starts() {
        t.sow(prog, r, p, d).unwrap();
    }
    t.work(prog, r, u32::MAX, End::Oldest).unwrap();
    t.close().unwrap();
    t
}

#[test]
fn reading() {
    let p = read(b"cells 0 1\nret l0\n").unwrap();
    assert_eq!((p.globals, p.locals, p.points(), p.procs()), (0, 1, 1, 1));
    assert_eq!(refusal("cells 0 0\nret l0\n"), Some(no(3, 1)));
    assert_eq!(refusal(""), Some(no(1, 0)));
    assert_eq!(refusal(&C[..C.len() - 1]), Some(no(2, 3)));
    assert_eq!(refusal("cells 0 1\ngoto 1\nret l0\nret l0\n"), None);
    assert_eq!(refusal("cells 0 1\ngoto 2\nret l0\nret l0\n"), Some(no(8, 2)));
}

#[test]
fn each_question_and_place() {
    assert_eq!(refusal(&"x".repeat(32_769)), Some(no(1, 0)));
    assert_eq!(refusal(&"x".repeat(32_768)), Some(no(2, 1)));
    assert_eq!(refusal("\n"), Some(no(2, 1)));
    assert_eq!(refusal("cells 0 1"), Some(no(2, 1)));
    assert_eq!(refusal("cells 0 01\nret l0\n"), Some(no(2, 1)));
    assert_eq!(refusal("cells 0 1\nret l00\n"), Some(no(2, 2)));
    assert_eq!(refusal("cells 0 1\nret l0 \n"), Some(no(2, 2)));
    assert_eq!(refusal("cells 0 1\nret  l0\n"), Some(no(2, 2)));
    assert_eq!(refusal("cells 0 1\r\nret l0\n"), Some(no(2, 1)));
    assert_eq!(refusal("cells 0 1\nret l0\n\n"), Some(no(2, 3)));
    assert_eq!(refusal("cells 0 1\ngoto 10000\nret l0\n"), Some(no(2, 2)));
    assert_eq!(refusal("cells 9999 0\nret l0\n"), Some(no(3, 1)));
    assert_eq!(refusal("cells 31 32\nret l31\n"), None);
    assert_eq!(refusal("cells 32 32\nret l31\n"), Some(no(3, 1)));
    assert_eq!(refusal("cells 0 33\nret l0\n"), Some(no(3, 1)));
    assert_eq!(refusal("cells 0 1\n"), Some(no(4, 0)));
    let long = |n: usize| format!("cells 0 1\n{}ret l0\n", "send l0\n".repeat(n - 1));
    assert_eq!(refusal(&long(1000)), None);
    assert_eq!(refusal(&long(1001)), Some(no(4, 0)));
    assert_eq!(refusal("cells 0 1\nret l5\nset l0\n"), Some(no(5, 3)));
    let rets = |n: usize| format!("cells 0 1\n{}", "ret l0\n".repeat(n));
    assert_eq!(refusal(&rets(60)), None);
    assert_eq!(refusal(&rets(61)), Some(no(6, 62)));
    assert_eq!(refusal("cells 3 2\nset g5\nret l0\n"), Some(no(7, 2)));
    assert_eq!(refusal("cells 0 1\ngoto 9\nset g0\nret l0\n"), Some(no(7, 3)));
    assert_eq!(refusal("cells 0 1\ncall l0 1 l0\ngoto 9\nret l0\n"), Some(no(8, 3)));
    assert_eq!(refusal("cells 0 1\ncall l0 1 l0\nret l0\n"), Some(no(9, 2)));
    assert_eq!(refusal("cells 0 1\ncall l0 0 l0\nret l0\n"), None);
}

#[test]
fn a_unset() {
    let (pairs, cells) = solve(A, Which::Unset);
    assert_eq!(
        pairs,
        [
            vec![0, 1, 2, 3],
            vec![0, 1, 3],
            vec![0, 3],
            vec![0, 3],
            vec![0, 1, 3],
            vec![0, 1]
        ]
    );
    assert_eq!(cells, 16);
}

#[test]
fn b_raw() {
    let (pairs, cells) = solve(B, Which::Raw);
    assert_eq!(pairs.iter().map(|p| p.len()).sum::<usize>(), 11);
    assert_eq!(cells, 11);
    assert!(!pairs[4].contains(&2), "returned to the wrong call");
}

#[test]
fn b_raw_trail() {
    let prog = read(B.as_bytes()).unwrap();
    let r = Cells::of(Which::Raw, &prog);
    let t = settled(&prog, &r);
    let want = [0x20000000, 0x40082000, 0x40102000, 0x80282000, 0xa0182000];
    assert_eq!(t.trail(&prog, &r, 3, 1, 5, 1), Ok(want.to_vec()));
    assert_eq!(t.trail(&prog, &r, 3, 1, 4, 9), Err(Nothing::Refused(17)));
    assert_eq!(t.trail(&prog, &r, 3, 1, 9, 0), Err(Nothing::Refused(17)));
    assert_eq!(t.trail(&prog, &r, 4, 2, 9, 9), Err(Nothing::Refused(15)));
    assert_eq!(t.trail(&prog, &r, 6, 1, 9, 9), Err(Nothing::Refused(13)));
    assert_eq!(t.trail(&prog, &r, 3, 3, 9, 9), Err(Nothing::Refused(13)));
    assert_eq!(check(&prog, &r, &want), Ok(()));
    let mut harmed = want;
    harmed[4] = 0xa0204000;
    assert_eq!(check(&prog, &r, &harmed), Err(4));
    assert_eq!(check(&prog, &r, &[]), Err(0));
    // any start will do, but a path has one, and words have no other bits
    assert_eq!(check(&prog, &r, &[0x20284000]), Ok(()));
    assert_eq!(check(&prog, &r, &[0x20080000]), Err(0));
    assert_eq!(check(&prog, &r, &[0x20000000, 0x20000000]), Err(1));
    assert_eq!(check(&prog, &r, &[0x20000001]), Err(0));
    assert_eq!(check(&prog, &r, &[0x40000000]), Err(0));
    assert_eq!(decode(0xc0000000), None);
}

#[test]
fn c_unset() {
    let (pairs, cells) = solve(C, Which::Unset);
    assert_eq!(pairs, [vec![0, 1, 2], vec![0, 1, 2]]);
    assert_eq!(cells, 7);
    let prog = read(C.as_bytes()).unwrap();
    let r = Cells::of(Which::Unset, &prog);
    assert!(Table::open(18, 2, 3).is_ok());
    assert_eq!(Table::open(17, 2, 3).err(), Some(Nothing::Refused(11)));
    let mut t = Table::open(18, 2, 3).unwrap();
    assert_eq!(t.sow(&prog, &r, 0, 1), Ok(1));
    assert_eq!(t.sow(&prog, &r, 0, 1), Ok(0));
    assert_eq!(t.sow(&prog, &r, 1, 1), Err(Nothing::Refused(13)));
    assert_eq!(t.sow(&prog, &r, 0, 3), Err(Nothing::Refused(13)));
    assert_eq!(t.close(), Err(Nothing::Refused(14)));
    assert_eq!(t.report(99), Err(Nothing::NotPut));
    let mut t = Table::open(18, 2, 3).unwrap();
    t.close().unwrap();
    assert_eq!(t.report(99).unwrap(), b"pairs 0 cells 0\n");
    assert_eq!(t.report(16).unwrap(), b"pairs 0 cells 0\n");
    assert_eq!(t.report(15), Err(Nothing::Refused(17)));
    assert_eq!(t.reopen(), Ok(()));
    assert_eq!(t.reopen(), Err(Nothing::NotPut));
    // counts that are not the table's
    let other = read(A.as_bytes()).unwrap();
    assert_eq!(
        t.sow(&other, &Cells::of(Which::Unset, &other), 0, 0),
        Err(Nothing::Refused(12))
    );
    assert_eq!(t.work(&other, &r, 1, End::Oldest), Err(Nothing::Refused(12)));
}

#[test]
fn report_line_by_line() {
    let prog = read(C.as_bytes()).unwrap();
    let r = Cells::of(Which::Unset, &prog);
    let mut t = settled(&prog, &r);
    let mut page = [b'.'; 44];
    t.begin().unwrap();
    assert_eq!(t.begin(), Err(Nothing::NotPut));
    assert_eq!(t.foot(&mut page), Err(Nothing::Refused(16)));
    for _ in 0..6 {
        assert_eq!(t.line(&mut page), Ok(1));
    }
    assert_eq!(t.line(&mut page), Ok(0));
    assert_eq!(t.foot(&mut page[..30]), Err(Nothing::Refused(17)));
    assert_eq!(t.foot(&mut page), Ok(40));
    assert_eq!(&page, b"0 0\n0 1\n0 2\n1 0\n1 1\n1 2\npairs 6 cells 7\n....");
    t.begin().unwrap();
    assert_eq!(t.line(&mut page[..3]), Err(Nothing::Refused(17)));
    t.abandon().unwrap();
    assert_eq!(t.abandon(), Err(Nothing::NotPut));
}

#[test]
fn c_sheet() {
    let want = "problem 1\n0 0\n0 1\n0 2\n1 0\n1 1\n1 2\npairs 6 cells 7\nproblem 2\n0 0\n1 0\npairs 2 cells 2\n";
    assert_eq!(String::from_utf8(sheet(C.as_bytes())).unwrap(), want);
    assert_eq!(sheet(b""), b"refused 1 at 0\n");
}

/// The order of finding, by hand, on C: three starts, then from the oldest cell on.
#[test]
fn records_of_c() {
    let prog = read(C.as_bytes()).unwrap();
    let r = Cells::of(Which::Unset, &prog);
    let t = settled(&prog, &r);
    let rec = |rank, kind, first| Record {
        rank,
        kind,
        first,
        second: 0,
    };
    let mut want = vec![Record::default(); 18];
    want[0] = rec(1, 1, 0); // (0, 0, 0)
    want[4] = rec(2, 1, 0); // (0, 1, 1)
    want[8] = rec(3, 1, 0); // (0, 2, 2)
    want[9] = rec(4, 2, 0); // (1, 0, 0)
    want[13] = rec(5, 2, 4); // (1, 1, 1)
    want[14] = rec(6, 2, 4); // (1, 1, 2)
    want[17] = rec(7, 2, 8); // (1, 2, 2)
    assert_eq!(t.records, want);
}

/// A return is recorded with both cells, and whichever end the cells are taken from, the same are found.
#[test]
fn records_of_b() {
    let prog = read(B.as_bytes()).unwrap();
    let r = Cells::of(Which::Raw, &prog);
    let t = settled(&prog, &r);
    let at = t.cell(3, 0, 1);
    let rec = t.records[at];
    assert_eq!(
        (rec.kind, rec.first as usize, rec.second as usize),
        (5, t.cell(2, 0, 1), t.cell(5, 1, 1))
    );
    let mut u = Table::open(t.records.len(), prog.points(), r.facts()).unwrap();
    u.sow(&prog, &r, 0, 0).unwrap();
    for k in 1..=11 {
        assert_eq!(u.work(&prog, &r, 1, End::Newest), Ok(1));
        assert_eq!(u.settled, k);
        assert_eq!(u.found as usize, u.settled as usize + u.waiting.len());
    }
    assert_eq!(u.work(&prog, &r, 1, End::Newest), Ok(0));
    assert_eq!(u.pairs(), t.pairs());
}

/// The tallies after portions of four cells, as the page of the repository tells them for this listing.
#[test]
fn portions_of_a() {
    let prog = read(A.as_bytes()).unwrap();
    let r = Cells::of(Which::Unset, &prog);
    let mut t = Table::open(6 * 16, 6, 4).unwrap();
    for (p, d) in r.starts() {
        t.sow(&prog, &r, p, d).unwrap();
    }
    let mut tallies = vec![];
    while t.work(&prog, &r, 4, End::Oldest).unwrap() > 0 {
        tallies.push((t.found, t.settled, t.waiting.len()));
    }
    assert_eq!(tallies, [(7, 4, 3), (13, 8, 5), (16, 12, 4), (16, 16, 0)]);
}

/// A procedure that calls itself, by hand: a callee's exit is found already when its call is settled, and a return goes back to every call
/// that is found, one that waits included.
#[test]
fn order_in_recursion() {
    let prog = read(b"cells 0 1\ntest l0 2\ncall l0 0 l0\nret l0\n").unwrap();
    // two facts; over the call 0 goes to 1 and 1 to 1; over the return 1 gives 0 and 1; past gives nothing; steps keep
    let mut rows = vec![];
    for n in 0..3 {
        for kind in [Kind::Step, Kind::Past, Kind::Call, Kind::Return] {
            rows.extend(match (n, kind) {
                (0, Kind::Step) => [1u64, 2],
                (1, Kind::Call) => [2, 2],
                (1, Kind::Return) => [0, 3],
                _ => [0, 0],
            });
        }
    }
    let r = Given { facts: 2, rows };
    let cell = |n: u32, a: u32, d: u32| (n * 2 + a) * 2 + d;
    let mut want = vec![Record::default(); 12];
    let mut rank = 0;
    let mut found = |at: u32, kind: u32, first: u32, second: u32| {
        rank += 1;
        want[at as usize] = Record {
            rank,
            kind,
            first,
            second,
        };
    };
    found(cell(0, 0, 0), 1, 0, 0);
    // (0, 0, 0) is settled: the next point, then the target
    found(cell(1, 0, 0), 2, cell(0, 0, 0), 0);
    found(cell(2, 0, 0), 2, cell(0, 0, 0), 0);
    // (1, 0, 0): the callee's entry; no exit of it is found
    found(cell(0, 1, 1), 4, cell(1, 0, 0), 0);
    // (2, 0, 0): nothing goes into the callee with 0. (0, 1, 1):
    found(cell(1, 1, 1), 2, cell(0, 1, 1), 0);
    found(cell(2, 1, 1), 2, cell(0, 1, 1), 0);
    // (1, 1, 1): the entry is found; its exit (2, 1, 1) too, though it waits
    found(cell(2, 1, 0), 5, cell(1, 1, 1), cell(2, 1, 1));
    // (2, 1, 1): back to (1, 0, 0), then to (1, 1, 1), where both are found
    found(cell(2, 0, 1), 5, cell(1, 0, 0), cell(2, 1, 1));
    let mut t = Table::open(12, 3, 2).unwrap();
    t.sow(&prog, &r, 0, 0).unwrap();
    t.work(&prog, &r, u32::MAX, End::Oldest).unwrap();
    assert_eq!(t.records, want);
    t.close().unwrap();
    let trail = t.trail(&prog, &r, 2, 1, 9, 9).unwrap();
    let moves: Vec<_> = trail
        .iter()
        .map(|w| decode(*w).map(|w| (w.kind, w.point, w.fact)).unwrap())
        .collect();
    assert_eq!(moves, [(1, 0, 0), (2, 1, 0), (4, 0, 1), (2, 2, 1), (5, 2, 1)]);
}

/// The four kinds, by hand, for one call and one return.
#[test]
fn cells_problems_by_hand() {
    let prog = read(A.as_bytes()).unwrap();
    assert_eq!(prog.stmts[1], Stmt::Call { d: 0, p: 1, s: 1 });
    let table = |which, kind, n| -> Vec<(usize, usize)> {
        let r = Cells::of(which, &prog);
        let mut out = vec![];
        for d in 0..4 {
            for e in 0..4 {
                if r.follows(&prog, kind, n, d, e) {
                    out.push((d, e));
                }
            }
        }
        out
    };
    // facts: 1 is g0, 2 is l0, 3 is l1
    assert_eq!(table(Which::Unset, Kind::Step, 0), [(0, 0), (1, 1), (3, 3)]);
    assert_eq!(table(Which::Raw, Kind::Step, 0), [(0, 0), (0, 2), (1, 1), (3, 3)]);
    assert_eq!(table(Which::Unset, Kind::Past, 1), [(0, 0), (2, 2), (3, 3)]);
    assert_eq!(table(Which::Unset, Kind::Call, 1), [(0, 0), (0, 3), (1, 1), (2, 2)]);
    assert_eq!(table(Which::Raw, Kind::Call, 1), [(0, 0), (1, 1), (2, 2)]);
    assert_eq!(table(Which::Unset, Kind::Return, 1), [(0, 0), (3, 1)]);
    assert_eq!(table(Which::Unset, Kind::Step, 4), [(0, 0), (1, 1), (2, 2), (2, 3)]);
    assert_eq!(table(Which::Raw, Kind::Step, 4), [(0, 0), (1, 1), (2, 2)]);
    assert_eq!(table(Which::Raw, Kind::Step, 1), []);
    assert_eq!(table(Which::Raw, Kind::Return, 3), []);
}

/// What goes over the wire, word for word, for a small row of calls.
#[test]
fn the_wire() {
    let prog = read(b"cells 0 1\nsend l0\nret l0\n").unwrap();
    let mut rows = vec![0u64; prog.points() * 4];
    rows[0] = 1;
    let r = Given { facts: 1, rows };
    let run = [
        Call::Close,
        Call::Sow(0, 0),
        Call::Sow(1, 0),
        Call::Close,
        Call::Oldest(9),
        Call::Close,
        Call::Trail(1, 0),
        Call::Trail(2, 0),
        Call::Report,
        Call::Sow(0, 0),
    ];
    let mut stub = Stub { harm: 0 };
    let got = stub.tabulate(b"cells 0 1\nsend l0\nret l0\n", &r.bytes(), 1, &words(&run));
    let report: Vec<u32> = b"0 0\n1 0\npairs 2 cells 2\n".iter().map(|b| *b as u32).collect();
    let mut want = vec![
        0, 0, 0, 0, // closed at once
        2000, 0, 0, 0, // so sow is not put
        2000, 0, 0, 0, 2000, 0, 0, 0, 2000, 0, 0, 0, 2000, 0, 0, 0, 1015, 0, 0, 0, 0, 1013, 0, 0, 0, 0, 0, 0, 0, 0, 16,
    ];
    want.extend(b"pairs 0 cells 0\n".iter().map(|b| *b as u32));
    want.extend([2000, 0, 0, 0, 9999, 0, 0, 0, 0, 0, 0, 0, 0]);
    assert_eq!(got, want);
    let got = stub.tabulate(b"cells 0 1\nsend l0\nret l0\n", &r.bytes(), 1, &words(&run[1..]));
    let mut want = vec![
        1, 1, 0, 1, // sown
        1013, 1, 0, 1, // no such procedure
        1014, 1, 0, 1, // something waits
        2, 2, 2, 0, // two settled
        0, 2, 2, 0, // closed
        2, 2, 2, 0, 2, 0x20000000, 0x40080000, // the trail
        1013, 2, 2, 0, 0, // no such point
        0, 2, 2, 0, 24, // the report
    ];
    want.extend(report);
    want.extend([2000, 2, 2, 0, 9999, 1, 1, 0, 0, 2, 2, 0, 0]);
    assert_eq!(got, want);
}
