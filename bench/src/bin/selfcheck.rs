//! selfcheck COUNT SEED: compares the solvers of this crate with each other on random listings and relations. Nothing else is needed.

use bench::closure::{pairs_by_configurations, pairs_of_cells, reached};
use bench::gen;
use bench::listing::{read, No, Program, Stmt};
use bench::path::{check, decode, encode, nested, Word};
use bench::problem::{Cells, Flow, Given, Kind, Relation, Which};
use bench::rng::Rng;
use bench::sheet::sheet;
use bench::solve::{tabulate, tabulate_batched};
use bench::table::{End, Nothing, Table};
use bench::wire::{play, Call};

#[derive(Default)]
struct Tally {
    names: Vec<(&'static str, u64)>,
    wrong: u64,
}

impl Tally {
    fn count(&mut self, name: &'static str, by: u64) {
        match self.names.iter_mut().find(|(n, _)| *n == name) {
            Some((_, k)) => *k += by,
            None => self.names.push((name, by)),
        }
    }

    fn must(&mut self, yes: bool, name: &'static str, case: &dyn Fn() -> String) {
        self.count(name, 1);
        if !yes {
            self.wrong += 1;
            if self.wrong <= 5 {
                println!("DIFFERENT: {name}\n{}", case());
            }
        }
    }
}

/// Settles everything, in portions from both ends.
fn settle_somehow<R: Relation>(rng: &mut Rng, t: &mut Table, prog: &Program, r: &R, starts: &[(usize, usize)]) {
    for &(p, d) in starts {
        t.sow(prog, r, p, d).unwrap();
        if rng.one_in(3) {
            t.work(prog, r, rng.below(20) as u32, End::Newest).unwrap();
        }
    }
    let style = rng.below(4);
    while !t.waiting.is_empty() {
        let end = match style {
            0 => End::Oldest,
            1 => End::Newest,
            _ if rng.one_in(2) => End::Oldest,
            _ => End::Newest,
        };
        let k = if style == 3 { 1 } else { rng.range(1, 200) as u32 };
        t.work(prog, r, k, end).unwrap();
    }
    t.close().unwrap();
}

#[allow(clippy::too_many_arguments)]
fn compare_all<R: Relation>(
    tally: &mut Tally,
    rng: &mut Rng,
    prog: &Program,
    r: &R,
    flow: &Flow,
    starts: &[(usize, usize)],
    case: &dyn Fn() -> String,
) {
    let f = r.facts();
    let n = prog.points();
    let one = tabulate(prog, flow, starts);
    let pairs = one.pairs();
    let cells = one.count();
    let batched = tabulate_batched(prog, flow, starts);
    tally.must(
        one.path == batched.path,
        "batched solver finds the cells of the plain one",
        case,
    );

    let mut t = Table::open(n * f * f, n, f).unwrap();
    settle_somehow(rng, &mut t, prog, r, starts);
    let same = (0..n * f * f).all(|c| one.has(c / (f * f), c / f % f, c % f) == (t.records[c].rank != 0));
    tally.must(same, "simulation finds the cells of the worklist solver", case);
    tally.must(
        t.settled as usize == cells && t.found == t.settled,
        "number of cells",
        case,
    );
    tally.must(t.pairs() == pairs, "pairs", case);
    tally.count("cells", cells as u64);

    // ranks: 1 to found, each once; a cell comes from cells of lower rank
    let mut ranks: Vec<u32> = t.records.iter().map(|r| r.rank).filter(|k| *k != 0).collect();
    ranks.sort();
    let once = ranks.iter().enumerate().all(|(i, k)| *k == i as u32 + 1);
    let lower = t.records.iter().all(|r| {
        let less = |c: u32| t.records[c as usize].rank != 0 && t.records[c as usize].rank < r.rank;
        r.rank == 0 || ((r.kind == 1 || less(r.first)) && (r.kind != 5 || less(r.second)))
    });
    tally.must(once && lower, "ranks", case);

    if n * f * f <= 6_000 {
        let closure = reached(prog, r, starts);
        let same = (0..n * f * f).all(|c| closure[c] == (t.records[c].rank != 0));
        tally.must(same, "naive closure finds the same cells", case);
        tally.must(
            pairs_of_cells(f, &closure) == pairs,
            "naive closure finds the same pairs",
            case,
        );
    }
    if n * f <= 300 {
        let (ends, whole) = pairs_by_configurations(prog, r, starts, 4, 3_000);
        let within = ends.iter().zip(&pairs).all(|(a, b)| a & !b == 0);
        tally.must(within, "ends of paths are pairs", case);
        if whole {
            tally.must(ends == pairs, "all ends of paths are all pairs", case);
        }
    }

    // trails
    let mut listed: Vec<(usize, usize)> = Vec::new();
    for (m, facts) in pairs.iter().enumerate() {
        listed.extend((0..f).filter(|d| facts >> d & 1 == 1).map(|d| (m, d)));
    }
    for _ in 0..listed.len().min(60) {
        let (m, d) = *rng.pick(&listed);
        match t.trail(prog, r, m, d, 4096, 64) {
            Ok(words) => {
                let start = decode(words[0]).unwrap();
                let last = decode(*words.last().unwrap()).unwrap();
                let good = check(prog, r, &words).is_ok()
                    && (last.point, last.fact) == (m, d)
                    && starts
                        .iter()
                        .any(|&(p, e)| (prog.entry[p], e) == (start.point, start.fact));
                tally.must(good, "a trail is a path from a start to its pair", case);
                tally.count("words of trails", words.len() as u64);
                if words.iter().any(|w| w >> 29 == 5) {
                    tally.count("trails with a return", 1);
                }
                let fits = t.trail(prog, r, m, d, words.len(), 64).is_ok();
                let less = t.trail(prog, r, m, d, words.len() - 1, 64) == Err(Nothing::Refused(17));
                tally.must(fits && less, "a trail needs just its words", case);
                let deep = nested(&words);
                let fits = t.trail(prog, r, m, d, 4096, deep).as_ref() == Ok(&words);
                let less = deep == 0 || t.trail(prog, r, m, d, 4096, deep - 1) == Err(Nothing::Refused(17));
                tally.must(
                    fits && less,
                    "a trail needs memory for just the calls that are nested in it",
                    case,
                );
                if deep > 3 {
                    tally.count("trails with four or more calls nested", 1);
                }
                // one word harmed: where the check says no, the words before it are still a path
                let mut harmed = words.clone();
                let i = rng.below(harmed.len());
                harmed[i] = if rng.one_in(2) {
                    harmed[i] ^ 1 << rng.below(32)
                } else {
                    encode(Word {
                        kind: rng.range(1, 5) as u32,
                        point: rng.below(n),
                        fact: rng.below(f),
                    })
                };
                if let Err(at) = check(prog, r, &harmed) {
                    let at = at as usize;
                    tally.must(
                        at >= i && (at == 0 || check(prog, r, &harmed[..at]).is_ok()),
                        "what stands before a refused word is a path",
                        case,
                    );
                }
            }
            Err(e) => {
                tally.must(
                    e == Nothing::Refused(17),
                    "a trail to a pair is given or does not fit",
                    case,
                );
                tally.count("trails that do not fit", 1);
            }
        }
    }

    // a random walk is a path, and its end a pair
    for _ in 0..4 {
        if starts.is_empty() {
            break;
        }
        let words = walk(rng, prog, r, starts);
        let end = decode(*words.last().unwrap()).unwrap();
        tally.must(check(prog, r, &words).is_ok(), "a random walk is a path", case);
        tally.must(
            pairs[end.point] >> end.fact & 1 == 1,
            "a random walk ends at a pair",
            case,
        );
    }
}

fn walk<R: Relation>(rng: &mut Rng, prog: &Program, r: &R, starts: &[(usize, usize)]) -> Vec<u32> {
    let (p, d) = *rng.pick(starts);
    let mut now = Word {
        kind: 1,
        point: prog.entry[p],
        fact: d,
    };
    let mut words = vec![encode(now)];
    let mut open: Vec<usize> = vec![];
    for _ in 0..rng.range(0, 60) {
        let n = now.point;
        let mut next: Vec<Word> = vec![];
        for e in 0..r.facts() {
            let mut add = |kind: u32, point: usize| next.push(Word { kind, point, fact: e });
            match prog.stmts[n] {
                Stmt::Call { p, .. } => {
                    if r.follows(prog, Kind::Past, n, now.fact, e) {
                        add(3, n + 1);
                    }
                    if r.follows(prog, Kind::Call, n, now.fact, e) {
                        add(4, prog.entry[p]);
                    }
                }
                Stmt::Ret { .. } => {
                    if let Some(&c) = open.last() {
                        if r.follows(prog, Kind::Return, c, now.fact, e) {
                            add(5, c + 1);
                        }
                    }
                }
                _ => {
                    let (to, many) = prog.successors(n);
                    for &m in &to[..many] {
                        if r.follows(prog, Kind::Step, n, now.fact, e) {
                            add(2, m);
                        }
                    }
                }
            }
        }
        if next.is_empty() {
            break;
        }
        now = *rng.pick(&next);
        match now.kind {
            4 => open.push(n),
            5 => {
                open.pop();
            }
            _ => {}
        }
        words.push(encode(now));
    }
    words
}

/// A sheet out of the worklist solver alone, for listings that fit.
fn sheet_by_solver(prog: &Program) -> Vec<u8> {
    let mut out = String::new();
    for (number, which) in [(1, Which::Unset), (2, Which::Raw)] {
        out += &format!("problem {number}\n");
        let f = prog.globals + prog.locals + 1;
        if prog.points() * f * f > 3000 {
            out += "refused 11 at 0\n";
            continue;
        }
        let edges = tabulate(prog, &Flow::cells(prog, which), &Cells::of(which, prog).starts());
        let mut lines = 0;
        for (n, facts) in edges.pairs().iter().enumerate() {
            for d in (0..f).filter(|d| facts >> d & 1 == 1) {
                out += &format!("{n} {d}\n");
                lines += 1;
            }
        }
        out += &format!("pairs {lines} cells {}\n", edges.count());
    }
    out.into_bytes()
}

fn main() {
    let args: Vec<u64> = std::env::args().skip(1).filter_map(|a| a.parse().ok()).collect();
    let (count, seed) = (args.first().copied().unwrap_or(1000), args.get(1).copied().unwrap_or(1));
    let mut tally = Tally::default();
    let mut refused = [0u64; 10];
    for i in 0..count {
        // random relations
        let mut rng = Rng::of_case(seed, 1, i);
        let shape = gen::shape(&mut rng, if i % 16 == 0 { 70 } else { 40 }, 6);
        let (text, special) = gen::case_listing(&mut rng, &shape, i);
        let case = || format!("seed {seed} case {i}\n{}", String::from_utf8_lossy(&text));
        let prog = match read(&text) {
            Ok(p) => p,
            Err(e) => {
                tally.must(false, "a listing that is made to be good is read", &|| {
                    format!("{e:?}\n{}", case())
                });
                continue;
            }
        };
        let r = match special {
            Some(r) => r,
            None => {
                let f = gen::facts(&mut rng);
                gen::relation(&mut rng, prog.points(), f)
            }
        };
        let f = r.facts;
        let again = Given::from_bytes(f, prog.points(), &r.bytes());
        tally.must(again.as_ref() == Some(&r), "a relation is read from its bytes", &case);
        let mut starts = vec![];
        for _ in 0..rng.range(0, 5) {
            starts.push((rng.below(prog.procs()), rng.below(f)));
        }
        let flow = Flow::given(&prog, &r);
        compare_all(&mut tally, &mut rng, &prog, &r, &flow, &starts, &case);

        // random rows of calls: what is closed has found what the solver reaches from what was accepted
        let run: Vec<Call> = gen::calls(&mut rng, &prog, &r);
        let (answers, _, t) = play(&prog, &r, &run);
        let sums = answers.iter().all(|a| a.found == a.settled + a.waiting);
        tally.must(sums, "found = settled + waiting", &case);
        tally.count("calls", run.len() as u64);
        let edges = tabulate(&prog, &flow, &t.accepted);
        let among = (0..t.records.len()).all(|c| t.records[c].rank == 0 || edges.has(c / (f * f), c / f % f, c % f));
        tally.must(among, "found cells are reached", &case);
        if t.waiting.is_empty() {
            tally.must(
                edges.count() == t.found as usize,
                "where nothing waits all reached cells are found",
                &case,
            );
        }

        // unset and raw
        let mut rng = Rng::of_case(seed, 2, i);
        let many = if i % 8 == 0 { 63 } else { 8 };
        let shape = gen::shape(&mut rng, 40, many);
        let text = gen::listing(&mut rng, &shape);
        let case = || format!("seed {seed} case {i} (cells)\n{}", String::from_utf8_lossy(&text));
        let prog = read(&text).unwrap_or_else(|e| panic!("{e:?}\n{}", case()));
        for which in [Which::Unset, Which::Raw] {
            let r = Cells::of(which, &prog);
            let flow = Flow::cells(&prog, which);
            let given = Given::of(&prog, &r);
            let other = Flow::given(&prog, &given);
            let same =
                flow.step == other.step && flow.past == other.past && flow.call == other.call && flow.ret == other.ret;
            tally.must(same, "flow functions written forward are those written backward", &case);
            compare_all(&mut tally, &mut rng, &prog, &r, &flow, &r.starts(), &case);
        }

        // sheets, of good and of damaged listings
        let cells = rng.range(1, 9);
        let shape = gen::shape(&mut rng, 60, cells);
        let text = if i % 2 == 0 {
            gen::listing(&mut rng, &shape)
        } else {
            gen::damaged(&mut rng, &shape)
        };
        let case = || format!("seed {seed} case {i} (sheet)\n{}", String::from_utf8_lossy(&text));
        let own = sheet(&text);
        match read(&text) {
            Ok(prog) => {
                refused[0] += 1;
                tally.must(
                    own == sheet_by_solver(&prog),
                    "sheet is that of the worklist solver",
                    &case,
                );
            }
            Err(No { question, place }) => {
                refused[question as usize] += 1;
                let line = format!("refused {question} at {place}\n");
                tally.must(own == line.as_bytes(), "sheet of a refused listing", &case);
            }
        }
    }
    for (name, k) in &tally.names {
        println!("{k:>10}  {name}");
    }
    println!(
        "listings for sheets: read {}, refused by question {:?}",
        refused[0],
        &refused[1..]
    );
    println!("{count} cases of each kind, seed {seed}: {} differences", tally.wrong);
    if tally.wrong > 0 {
        std::process::exit(1);
    }
}
