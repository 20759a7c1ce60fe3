//! What the program `sheet` prints for a listing: for the problems unset and raw a report, or the refusal.

use crate::listing::{read, Program};
use crate::problem::{Cells, Relation, Which};
use crate::table::{End, Nothing, Table};

pub const RECORDS: usize = 3_000;
pub const PAGE: usize = 16_384;

fn report(prog: &Program, which: Which) -> Result<Vec<u8>, Nothing> {
    let r = Cells::of(which, prog);
    let mut t = Table::open(RECORDS, prog.points(), r.facts())?;
    for (p, d) in r.starts() {
        t.sow(prog, &r, p, d)?;
    }
    while t.work(prog, &r, u32::MAX, End::Oldest)? > 0 {}
    t.close()?;
    t.report(PAGE)
}

pub fn sheet(listing: &[u8]) -> Vec<u8> {
    let prog = match read(listing) {
        Ok(p) => p,
        Err(no) => return format!("refused {} at {}\n", no.question, no.place).into_bytes(),
    };
    let mut out = Vec::new();
    for (number, which) in [(1, Which::Unset), (2, Which::Raw)] {
        out.extend(format!("problem {number}\n").bytes());
        match report(&prog, which) {
            Ok(text) => out.extend(text),
            Err(Nothing::Refused(k)) => out.extend(format!("refused {k} at 0\n").bytes()),
            Err(Nothing::NotPut) => unreachable!(),
        }
    }
    out
}
