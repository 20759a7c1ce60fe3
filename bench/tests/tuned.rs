//! The tuned table has the very records of the simulation, which `compare` holds against the library's.

use bench::gen;
use bench::listing::{read, Program};
use bench::problem::{Cells, Flow, Given, Which};
use bench::rng::Rng;
use bench::table::{End, Table};
use bench::tuned::{tabulate_tuned, Job, Record, Tuned};

/// A listing with a random relation, or with unset or raw.
fn case(rng: &mut Rng, i: u64) -> (Program, Given) {
    let most = *rng.pick(&[6, 20, 40, 70]);
    let shape = gen::shape(rng, most, 6);
    let (text, special) = gen::case_listing(rng, &shape, i);
    let prog = read(&text).expect("a listing that is made to be good");
    let given = match (special, rng.below(6)) {
        (Some(given), _) => given,
        (None, 0) => Given::of(&prog, &Cells::of(Which::Unset, &prog)),
        (None, 1) => Given::of(&prog, &Cells::of(Which::Raw, &prog)),
        (None, 2) => {
            let f = gen::facts(rng);
            gen::relation_of_degree(rng, prog.points(), f, 1.5)
        }
        (None, _) => {
            let f = gen::facts(rng);
            gen::relation(rng, prog.points(), f)
        }
    };
    (prog, given)
}

fn same(simulation: &Table, t: &Tuned, i: u64) {
    assert_eq!(t.found, simulation.found, "case {i}");
    assert_eq!(t.settled, simulation.settled, "case {i}");
    assert_eq!(t.waiting() as usize, simulation.waiting.len(), "case {i}");
    assert!(
        t.records
            .iter()
            .map(|r| r.words())
            .eq(simulation.records.iter().copied()),
        "case {i}"
    );
}

#[test]
fn from_either_end() {
    for i in 0..1000 {
        let mut rng = Rng::of_case(1, 30, i);
        let (prog, given) = case(&mut rng, i);
        let flow = Flow::given(&prog, &given);
        let job = Job::new(&prog, &flow);
        let starts: Vec<_> = (0..given.facts).map(|d| (0, d)).collect();
        for end in [End::Oldest, End::Newest] {
            let mut simulation = Table::open(job.cells(), prog.points(), given.facts).unwrap();
            for &(p, d) in &starts {
                simulation.sow(&prog, &given, p, d).unwrap();
            }
            simulation.work(&prog, &given, u32::MAX, end).unwrap();
            let memory = vec![Record::default(); job.cells()];
            let (records, found, settled) = tabulate_tuned(&job, memory, &starts, end);
            assert!(
                records.iter().map(|r| r.words()).eq(simulation.records.iter().copied()),
                "case {i}, {end:?}"
            );
            assert_eq!(
                (found, settled),
                (simulation.found, simulation.settled),
                "case {i}, {end:?}"
            );
        }
    }
}

#[test]
fn in_portions() {
    for i in 0..1000 {
        let mut rng = Rng::of_case(1, 31, i);
        let (prog, given) = case(&mut rng, i);
        let flow = Flow::given(&prog, &given);
        let job = Job::new(&prog, &flow);
        let mut simulation = Table::open(job.cells(), prog.points(), given.facts).unwrap();
        // a memory that was used before
        let used = Record::new(7, 3, 1, 2);
        let mut t = Tuned::open(&job, vec![used; job.cells()]);
        let most = *rng.pick(&[3, 20, 200]);
        for _ in 0..rng.range(1, 20) {
            if rng.one_in(2) {
                let (p, d) = (rng.below(prog.procs()), rng.below(given.facts));
                let new = simulation.sow(&prog, &given, p, d).unwrap();
                assert_eq!(t.sow(p, d) as u32, new, "case {i}");
            }
            let end = if rng.one_in(2) { End::Oldest } else { End::Newest };
            let k = rng.below(most) as u32;
            let settled = simulation.work(&prog, &given, k, end).unwrap();
            assert_eq!(t.work(k, end), settled, "case {i}");
            same(&simulation, &t, i);
        }
        simulation.work(&prog, &given, u32::MAX, End::Oldest).unwrap();
        t.work(u32::MAX, End::Oldest);
        same(&simulation, &t, i);
    }
}
