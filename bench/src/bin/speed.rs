//! speed [--points 100,200,500,1000] [--facts 8,16,32,64] [--problems unset,raw,sparse,dense] [--seed 1] [--stub 0]: times the worklist
//! solvers and the verified library side by side, in one run, and prints a table in Markdown.
//!
//! What is timed is the whole way from the listing's bytes (and the relation's) to the number of cells. What goes by before a cell is settled
//! is measured by itself and taken off. The least of five rounds or more is taken.

use std::cell::RefCell;
use std::time::{Duration, Instant};

use bench::gen::{self, Shape};
use bench::listing::{read, Program};
use bench::problem::{Cells, Flow, Given, Which};
use bench::rng::Rng;
use bench::solve::{tabulate, tabulate_batched, Edges};
use bench::table::End;
use bench::tuned::{tabulate_tuned, Job, Record, Tuned};
use bench::verified::{linked, Library, Stub};

/// What the library's record takes, in bytes.
const LIBRARY_RECORD: usize = 32;

/// The least time of each measure, and what it gave. They are taken in turn, so that what else the machine does harms all alike, for five
/// rounds or more, up to a hundred as long as they last under four seconds together; and each three times in a row, if that is soon done,
/// so that what the one before it left behind harms it less.
fn least<const K: usize>(measures: [&dyn Fn() -> usize; K]) -> [(Duration, usize); K] {
    let begun = Instant::now();
    let mut out = [(Duration::MAX, 0); K];
    for round in 0..100 {
        if round >= 5 && begun.elapsed() > Duration::from_secs(4) {
            break;
        }
        for (out, measure) in out.iter_mut().zip(measures) {
            let turn = Instant::now();
            for _ in 0..3 {
                let t = Instant::now();
                let got = std::hint::black_box(measure());
                *out = (out.0.min(t.elapsed()), got);
                if turn.elapsed() > Duration::from_millis(20) {
                    break;
                }
            }
        }
    }
    out
}

fn list(args: &[String], name: &str, or: &str) -> Vec<String> {
    let at = args.iter().position(|a| a == name);
    let text = at.and_then(|i| args.get(i + 1)).map_or(or, |s| s.as_str());
    text.split(',').map(|s| s.to_string()).collect()
}

fn per_cell(t: Duration, cells: usize) -> f64 {
    t.as_nanos() as f64 / cells.max(1) as f64
}

/// The same listing, but that its first procedure is left at once, so that nothing is reached.
fn left_at_once(text: &[u8]) -> Vec<u8> {
    let text = String::from_utf8_lossy(text);
    let mut lines: Vec<String> = text.lines().map(|l| l.to_string()).collect();
    lines[1] = "ret l0".into();
    for l in &mut lines[2..] {
        if (l.starts_with("test") || l.starts_with("goto")) && l.ends_with(" 0") {
            l.pop();
            l.push('1');
        }
    }
    gen::spell(&lines)
}

fn main() {
    bench::on_roomy_stack(work);
}

fn work() {
    let args: Vec<String> = std::env::args().skip(1).collect();
    let numbers = |name: &str, or: &str| -> Vec<usize> {
        list(&args, name, or)
            .iter()
            .map(|s| s.parse().expect("a number"))
            .collect()
    };
    let points = numbers("--points", "100,200,500,1000");
    let facts = numbers("--facts", "8,16,32,64");
    let seed = numbers("--seed", "1")[0] as u64;
    let problems = list(&args, "--problems", "unset,raw,sparse,dense");
    let mut lib: Option<Box<dyn Library>> = linked();
    if args.iter().any(|a| a == "--stub") {
        lib = Some(Box::new(Stub { harm: 0 }));
    }
    let lib = RefCell::new(lib);
    match &*lib.borrow() {
        Some(l) => println!("Side by side with {}. Times are nanoseconds for each cell.\n", l.name()),
        None => println!(
            "Built without the verified library: its columns stay empty. Times are nanoseconds for each cell.\n"
        ),
    }
    println!("| problem | F | N | cells | plain | batched | tuned | library | library / plain | library / batched | library / tuned | growth of plain | growth of library | reading, ms | opening of tuned, ms | opening of library, ms |");
    println!("|---|--:|--:|--:|--:|--:|--:|--:|--:|--:|--:|--:|--:|--:|--:|--:|");
    let mut differ = 0;
    for problem in &problems {
        for &f in &facts {
            let mut before: Option<(f64, Option<f64>)> = None;
            for &n in &points {
                let mut rng = Rng::of_case(seed, 20, (n * 100 + f) as u64);
                let cells = (f - 1).max(1);
                let globals = (cells / 2).min(31);
                let shape = Shape {
                    globals,
                    locals: cells - globals,
                    points: n,
                    procs: (n / 50).clamp(1, 60),
                };
                let text = gen::spell(&gen::busy(&mut rng, &shape));
                let prog = read(&text).expect("a good listing");
                // the problem as tables, but for unset
                let given: Option<Given> = match problem.as_str() {
                    "unset" => None,
                    "raw" => Some(Given::of(&prog, &Cells::of(Which::Raw, &prog))),
                    "sparse" => Some(gen::relation_of_degree(&mut rng, n, f, 1.5)),
                    "dense" => Some(gen::relation_of_degree(&mut rng, n, f, f as f64 / 2.0)),
                    other => panic!("no problem {other}"),
                };
                let bytes = given.as_ref().map(|g| g.bytes());
                let starts: Vec<(usize, usize)> = (0..f).map(|d| (0, d)).collect();
                let reading = || {
                    let prog = read(&text).unwrap();
                    let flow = match &bytes {
                        None => Flow::cells(&prog, Which::Unset),
                        Some(b) => Flow::given(&prog, &Given::from_bytes(f, prog.points(), b).unwrap()),
                    };
                    (prog, flow)
                };
                let run = |solver: &dyn Fn(&Program, &Flow, &[(usize, usize)]) -> Edges| -> usize {
                    let (prog, flow) = reading();
                    solver(&prog, &flow, &starts).count()
                };
                let memory = RefCell::new(vec![Record::default(); n * f * f]);
                let lent = |work: &dyn Fn(&Job, Vec<Record>) -> (Vec<Record>, u32, u32)| -> usize {
                    let (prog, flow) = reading();
                    let job = Job::new(&prog, &flow);
                    let (records, _, settled) = work(&job, memory.take());
                    memory.replace(records);
                    settled as usize
                };
                // as many points and records of which nothing is reached
                let none = vec![0; n * 4 * f * 8];
                let left = left_at_once(&text);
                let asked = |text: &[u8], relation: Option<&[u8]>| -> usize {
                    let mut lib = lib.borrow_mut();
                    let Some(l) = lib.as_mut() else { return 0 };
                    let got = match relation {
                        None => l.settle_unset(text),
                        Some(b) => l.settle_all(text, b, f as u8),
                    };
                    got as usize
                };
                let [(before_it, _), (plain, count), (batched, count_batched), (tuned, count_tuned), (opening_tuned, _), (library, got), (opening, sown)] =
                    least([
                        &|| reading().0.points(),
                        &|| run(&tabulate),
                        &|| run(&tabulate_batched),
                        &|| lent(&|job, memory| tabulate_tuned(job, memory, &starts, End::Oldest)),
                        &|| lent(&|job, memory| (Tuned::open(job, memory).records, 0, 0)),
                        &|| asked(&text, bytes.as_deref()),
                        &|| match &bytes {
                            None => asked(&left, None),
                            Some(_) => asked(&text, Some(&none)),
                        },
                    ]);
                assert_eq!((count, count), (count_batched, count_tuned));
                let there = lib.borrow().is_some();
                if there && (got, sown) != (count, f) {
                    differ += 1;
                    println!("DIFFERENT: {problem} F {f} N {n}: library {got} and {sown} cells, here {count} and {f}");
                }
                let without = |t: Duration| per_cell(t.saturating_sub(before_it), count);
                let p = without(plain);
                let b = without(batched);
                let t = per_cell(tuned.saturating_sub(opening_tuned), count);
                let l = there.then(|| per_cell(library.saturating_sub(opening), count));
                let show = |x: Option<f64>| x.map_or("".into(), |x| format!("{x:.1}"));
                let times = |x: Option<f64>| x.map_or("".into(), |x| format!("{x:.2}"));
                println!(
                    "| {problem} | {f} | {n} | {count} | {p:.1} | {b:.1} | {t:.1} | {} | {} | {} | {} | {} | {} | {:.1} | {:.1} | {} |",
                    show(l),
                    show(l.map(|l| l / p)),
                    show(l.map(|l| l / b)),
                    times(l.map(|l| l / t)),
                    times(before.map(|(q, _)| p / q)),
                    times(before.and_then(|(_, m)| Some(l? / m?))),
                    before_it.as_nanos() as f64 / 1e6,
                    opening_tuned.as_nanos() as f64 / 1e6,
                    show(there.then_some(opening.as_nanos() as f64 / 1e6)),
                );
                before = Some((p, l));
            }
        }
    }
    println!("\nPlain is the worklist solver that takes path edges one by one, batched takes the facts that wait at one place together; neither keeps");
    println!("records, and their reading (of the listing, and making the flow functions) is taken off and told apart. Tuned keeps the rules' records");
    println!("and settles in their order, as the library does. Of tuned and of the library the opening is taken off and told: reading, making the rows, clearing N * F * F records.");
    println!("Tuned is handed the same memory each time; the library's functions ask for theirs and give it back, which is in its opening.");
    println!("The library's is measured where nothing is reached: over a relation that says no to everything, and for unset on a listing that is left at once.");
    println!(
        "A record of tuned takes {} bytes, beside which lie its rows of facts and its worklist; one of the library takes {LIBRARY_RECORD} with both.",
        std::mem::size_of::<Record>()
    );
    println!("Growth is the time for each cell over that in the row above, of fewer points.");
    if differ > 0 {
        println!("{differ} numbers of cells differ");
        std::process::exit(1);
    }
}
