//! compare COUNT SEED: compares the verified library with this crate, number for number. COUNT cases of each of four kinds are made: good
//! listings and damaged ones through `sheet`; random relations with random rows of calls, and refused listings, through `tabulate`; and
//! `settle_all` and `settle_unset` on small listings.
//!
//! With `--only KIND CASE` behind, one case alone is made again and told in full. With `--stub HARM` a stand-in takes the library's place.

use bench::closure::{pairs_of_cells, reached};
use bench::gen;
use bench::listing::{read, Program};
use bench::path::check;
use bench::problem::{Cells, Flow, Given, Which};
use bench::rng::Rng;
use bench::sheet::sheet;
use bench::solve::tabulate;
use bench::table::Nothing;
use bench::verified::{linked, Library, Stub};
use bench::wire::{encode, play, where_is, words, Answer, Call, END_OF_CALLS};

const SHOWN: u64 = 5;

#[derive(Default)]
struct Report {
    counts: Vec<(String, u64)>,
    different: u64,
    whole: bool,
}

impl Report {
    fn count(&mut self, name: &str, by: u64) {
        match self.counts.iter_mut().find(|(n, _)| n == name) {
            Some((_, k)) => *k += by,
            None => self.counts.push((name.into(), by)),
        }
    }

    /// One comparison under a name; where it fails the case is told.
    fn same(&mut self, name: &str, yes: bool, case: &dyn Fn() -> String) {
        self.count(name, 1);
        if !yes {
            self.different += 1;
            if self.different <= SHOWN {
                println!("DIFFERENT: {name}\n{}", case());
            }
        }
    }
}

fn hex(bytes: &[u8]) -> String {
    bytes.iter().map(|b| format!("{b:02x}")).collect()
}

/// Two texts, from a little before the first byte in which they differ.
fn beside(theirs: &[u8], ours: &[u8]) -> String {
    let i = theirs
        .iter()
        .zip(ours)
        .position(|(a, b)| a != b)
        .unwrap_or(theirs.len().min(ours.len()));
    let from = i.saturating_sub(40);
    let part = |t: &[u8]| String::from_utf8_lossy(&t[from.min(t.len())..t.len().min(i + 40)]).into_owned();
    format!(
        "first differ at byte {i}; library ({} bytes) {:?}; here ({} bytes) {:?}",
        theirs.len(),
        part(theirs),
        ours.len(),
        part(ours)
    )
}

fn through_sheet(lib: &mut dyn Library, rep: &mut Report, seed: u64, kind: u64, i: u64) {
    let mut rng = Rng::of_case(seed, kind, i);
    let long = i % 32 == 9;
    let cells = if i.is_multiple_of(16) {
        63
    } else {
        rng.range(1, if long { 2 } else { 9 })
    };
    let most = if long { 1000 } else { *rng.pick(&[6, 40, 40, 70]) };
    let shape = gen::shape(&mut rng, most, cells);
    let text = if kind == 10 {
        gen::listing(&mut rng, &shape)
    } else {
        gen::damaged(&mut rng, &shape)
    };
    let ours = sheet(&text);
    let theirs = lib.sheet(&text);
    let name = if kind == 10 {
        "sheets of good listings"
    } else {
        "sheets of damaged listings"
    };
    if rep.whole {
        println!("listing {}\nlibrary:\n{}", hex(&text), String::from_utf8_lossy(&theirs));
    }
    rep.same(name, ours == theirs, &|| {
        format!(
            "seed {seed} kind {kind} case {i}\nlisting {}\n{}",
            hex(&text),
            beside(&theirs, &ours)
        )
    });
    match read(&text) {
        Ok(_) => rep.count("  listings read", 1),
        Err(no) => rep.count(&format!("  listings refused by question {}", no.question), 1),
    }
    if String::from_utf8_lossy(&theirs).contains("refused 11 at 0") {
        rep.count("  sheets with a refusal 11", 1);
    }
}

/// The answers of a row of calls out of the words that the library gave; none where they do not parse.
fn parse(run: &[Call], out: &[u32]) -> Option<(Vec<Answer>, usize)> {
    let mut at = 0;
    let mut answers = vec![];
    for c in run {
        let w = out.get(at..at + 4)?;
        at += 4;
        let mut more = None;
        if matches!(c, Call::Trail(..) | Call::Report) {
            let many = *out.get(at)? as usize;
            more = Some(out.get(at + 1..(at + 1).checked_add(many)?)?.to_vec());
            at += 1 + many;
        }
        answers.push(Answer {
            answer: w[0],
            found: w[1],
            settled: w[2],
            waiting: w[3],
            more,
        });
    }
    (out.get(at) == Some(&END_OF_CALLS)).then_some((answers, at + 1))
}

fn through_tabulate(lib: &mut dyn Library, rep: &mut Report, seed: u64, i: u64) {
    let mut rng = Rng::of_case(seed, 12, i);
    let long = i % 64 == 5;
    let most = if long { 1000 } else { *rng.pick(&[40, 40, 40, 70]) };
    let shape = gen::shape(&mut rng, most, 6);
    let (text, special) = gen::case_listing(&mut rng, &shape, i);
    let prog = read(&text).expect("a listing that is made to be good");
    // a random relation, or one of the two about cells
    let r = match rng.below(8) {
        _ if special.is_some() => special.unwrap(),
        0 => Given::of(&prog, &Cells::of(Which::Unset, &prog)),
        1 => Given::of(&prog, &Cells::of(Which::Raw, &prog)),
        _ => {
            let f = if long { rng.range(1, 4) } else { gen::facts(&mut rng) };
            gen::relation(&mut rng, prog.points(), f)
        }
    };
    let f = r.facts;
    let run = gen::calls(&mut rng, &prog, &r);
    let (answers, apart, t) = play(&prog, &r, &run);
    let ours = encode(&answers, &t);
    let theirs = lib.tabulate(&text, &r.bytes(), f as u8, &words(&run));
    let about = || {
        format!(
            "seed {seed} kind 12 case {i}: N {} F {f}\nlisting {}\ncalls {run:?}",
            prog.points(),
            hex(&text)
        )
    };
    if rep.whole {
        println!("{}\nlisting:\n{}", about(), String::from_utf8_lossy(&text));
        for (c, a) in run.iter().zip(&answers) {
            println!("{c:?}: here {a:?}");
        }
    }
    rep.same("rows of calls, whole answer", ours == theirs, &|| {
        let k = theirs
            .iter()
            .zip(&ours)
            .position(|(a, b)| a != b)
            .unwrap_or(theirs.len().min(ours.len()));
        format!(
            "{}\nfirst differ at word {k} of {} (here {}): library {:?}, here {:?}; {}",
            about(),
            theirs.len(),
            ours.len(),
            theirs.get(k),
            ours.get(k),
            where_is(&run, &answers, k, t.records.len())
        )
    });
    let Some((given, at)) = parse(&run, &theirs) else {
        rep.same("rows of calls that have their form", false, &about);
        return;
    };
    // each part by itself, so that the counts tell what was compared
    let mut accepted: Vec<(usize, usize)> = vec![];
    for (((c, theirs), ours), apart) in run.iter().zip(&given).zip(&answers).zip(&apart) {
        let name = match c {
            Call::Sow(..) => "sow",
            Call::Oldest(_) => "work, oldest",
            Call::Newest(_) => "work, newest",
            Call::Close => "close",
            Call::Reopen => "reopen",
            Call::Trail(..) => "trail",
            Call::Report => "report",
        };
        let how = match apart {
            Err(Nothing::NotPut) => "not put".to_string(),
            Err(Nothing::Refused(k)) => format!("refused {k}"),
            Ok(_) => "given".to_string(),
        };
        rep.same(&format!("  {name}: {how}"), theirs == ours, &about);
        if let (Call::Sow(p, d), 0 | 1) = (c, theirs.answer) {
            if (*p as usize) < prog.procs() && (*d as usize) < f {
                accepted.push((*p as usize, *d as usize));
            }
        }
        // what the library gave, by the path checker
        if let (Call::Trail(n, d), Some(w)) = (c, &theirs.more) {
            if !w.is_empty() {
                let last = w.last().copied().unwrap_or(0);
                let ends = last >> 19 & 0x3ff == *n && last >> 13 & 0x3f == *d;
                rep.same(
                    "trails of the library that are paths to their pair",
                    check(&prog, &r, w).is_ok() && ends,
                    &about,
                );
                rep.count("  words of trails", w.len() as u64);
                if w.iter().any(|w| w >> 29 == 5) {
                    rep.count("  trails with a return", 1);
                }
            }
        }
    }
    let records = &theirs[at..];
    rep.count("  records", t.records.len() as u64);
    if records.len() != t.records.len() * 4 {
        rep.same("number of records", false, &about);
        return;
    }
    // the library's found cells against the other solvers, where nothing waits
    let waiting = given.last().map_or(0, |a| a.waiting);
    if waiting == 0 {
        let found = |c: usize| records[c * 4] != 0;
        let mut pairs = vec![0u64; prog.points()];
        for c in (0..t.records.len()).filter(|c| found(*c)) {
            pairs[c / (f * f)] |= 1 << (c % f);
        }
        let edges = tabulate(&prog, &Flow::given(&prog, &r), &accepted);
        rep.same(
            "pairs of the library and of the worklist solver",
            edges.pairs() == pairs,
            &about,
        );
        let cells = (0..t.records.len()).all(|c| edges.has(c / (f * f), c / f % f, c % f) == found(c));
        rep.same("cells of the library and of the worklist solver", cells, &about);
        if t.records.len() <= 3_000 {
            let closure = reached(&prog, &r, &accepted);
            rep.same(
                "pairs of the library and of the naive closure",
                pairs_of_cells(f, &closure) == pairs,
                &about,
            );
        }
    }
}

fn refused_by_tabulate(lib: &mut dyn Library, rep: &mut Report, seed: u64, i: u64) {
    let mut rng = Rng::of_case(seed, 13, i);
    let shape = gen::shape(&mut rng, 12, 4);
    let text = gen::damaged(&mut rng, &shape);
    let (points, refused) = match read(&text) {
        Ok(p) => (p.points(), false),
        Err(_) => (3, true),
    };
    let f = rng.range(1, 3);
    let r = gen::relation(&mut rng, points, f);
    let run = [Call::Sow(0, 0), Call::Oldest(5), Call::Close];
    let theirs = lib.tabulate(&text, &r.bytes(), f as u8, &words(&run));
    rep.same(
        "tabulate gives 0 just for a listing that is refused",
        theirs.is_empty() == refused,
        &|| format!("seed {seed} kind 13 case {i}\nlisting {}", hex(&text)),
    );
}

fn cells_of(prog: &Program, flow: &Flow, starts: &[(usize, usize)]) -> u32 {
    tabulate(prog, flow, starts).count() as u32
}

fn through_settle(lib: &mut dyn Library, rep: &mut Report, seed: u64, i: u64) {
    let mut rng = Rng::of_case(seed, 14, i);
    let shape = gen::shape(&mut rng, 40, if i.is_multiple_of(16) { 63 } else { 8 });
    let text = gen::listing(&mut rng, &shape);
    let prog = read(&text).expect("a listing that is made to be good");
    let case = || format!("seed {seed} kind 14 case {i}\nlisting {}", hex(&text));
    let starts = Cells::of(Which::Unset, &prog).starts();
    let ours = cells_of(&prog, &Flow::cells(&prog, Which::Unset), &starts);
    rep.same("cells of unset", lib.settle_unset(&text) == ours, &case);
    let f = gen::facts(&mut rng);
    let r = gen::relation(&mut rng, prog.points(), f);
    let starts: Vec<_> = (0..f).map(|d| (0, d)).collect();
    let ours = cells_of(&prog, &Flow::given(&prog, &r), &starts);
    rep.same(
        "cells of a relation",
        lib.settle_all(&text, &r.bytes(), f as u8) == ours,
        &case,
    );
}

fn case(lib: &mut dyn Library, rep: &mut Report, seed: u64, kind: u64, i: u64) {
    match kind {
        10 | 11 => through_sheet(lib, rep, seed, kind, i),
        12 => through_tabulate(lib, rep, seed, i),
        13 => refused_by_tabulate(lib, rep, seed, i),
        _ => through_settle(lib, rep, seed, i),
    }
}

fn main() {
    let work = || {
        let args: Vec<String> = std::env::args().skip(1).collect();
        let number = |i: usize, or: u64| args.get(i).and_then(|a| a.parse().ok()).unwrap_or(or);
        let (count, seed) = (number(0, 1000), number(1, 1));
        let stub = args.iter().position(|a| a == "--stub");
        let mut lib: Box<dyn Library> = match (stub, linked()) {
            (Some(i), _) => Box::new(Stub {
                harm: number(i + 1, 0) as u32,
            }),
            (None, Some(l)) => l,
            (None, None) => {
                eprintln!("built without the verified library: set VERIFIED_LIB and build again, or try --stub 0");
                std::process::exit(2);
            }
        };
        println!("compared with: {}", lib.name());
        let mut rep = Report::default();
        if let Some(i) = args.iter().position(|a| a == "--only") {
            rep.whole = true;
            case(&mut *lib, &mut rep, seed, number(i + 1, 10), number(i + 2, 0));
        } else {
            for kind in 10..=14 {
                for i in 0..count {
                    case(&mut *lib, &mut rep, seed, kind, i);
                }
            }
        }
        rep.counts.sort_by_key(|(n, _)| n.trim_start().to_string());
        for (name, k) in &rep.counts {
            println!("{k:>10}  {}", name.trim_start());
        }
        println!("{count} cases of each kind, seed {seed}: {} differences", rep.different);
        if rep.different > 0 {
            std::process::exit(1);
        }
    };
    bench::on_roomy_stack(work);
}
