//! The functions of the verified library, and nothing else of it. They are linked where `VERIFIED_LIB` named its static library when this was
//! built (see README.md); otherwise `linked()` is none. Three are the product's, as `../include/jathrungi.h` declares them, and tell what comes of
//! them in an `Answer`; `tabulate` serves the comparison alone.
//!
//! All four take their inputs and lend their outputs as pointer and length; a length counts bytes of `u8` and words of `u32` (so `run_len` is
//! three times the number of calls). A pointer may be dangling where its length is 0. Inputs and outputs do not overlap, and nothing is kept
//! after a call returns. They are called from one thread.
//!
//! **Relation bytes.** For each point n from 0 to N - 1, for each kind in the order step, past, call, return: F rows of 8 bytes, an unsigned
//! number, little endian; bit e of row d says that e follows from d. A return is asked at the call's point. So row (n, kind, d) is at byte
//! ((n * 4 + kind) * F + d) * 8, and there are N * 4 * F * 8 bytes. Bits of a kind that the statement at n lacks, and bits from F on, may be
//! set and do not count: the answer is no.
//!
//! **`jathrungi_sheet`** writes what the program `sheet` prints and gives the number of bytes; it is refused if that does not fit.
//!
//! **`tabulate`** reads the listing, makes a problem of `facts` facts of the relation bytes, opens a table of exactly N * F * F records, and
//! performs the calls in `run`, three words each:
//!
//! | words | call |
//! |---|---|
//! | 1 p d | sow procedure p with fact d |
//! | 2 k 0 | work k, oldest |
//! | 3 k 0 | work k, newest |
//! | 4 0 0 | close |
//! | 5 0 0 | reopen |
//! | 6 n d | trail of (n, d), with a memory of 4096 words and one of 64 open calls |
//! | 7 0 0 | report: begin, line by line until a line gives 0, foot; on a page of 1 MiB |
//!
//! p and n are at most 65,535, d is at most 255, k is any number. After each call four words are written: the answer, then found, settled,
//! waiting, as the table then tells them. The answer is the number that the call gives (sow 0 or 1; work how many were settled; trail how many
//! words), 0 for a call that gives none (close, reopen, report); 1000 + k where it is refused with k; 2000 where it is not put, since the table
//! is not in a state that takes it. After the four words of a trail come the count of its words and the words; of a report, the count of its
//! bytes and the bytes, one in each word; where nothing was given the count is 0. At the end come 9999 and for each of the N * F * F records,
//! by number, four words: rank, kind, first, second; kind is 0 for a cell that is not found.
//!
//! It gives how many words were written, or 0 if the listing is refused, the relation has another length, or `out` is too small.
//!
//! **`jathrungi_settle_all`** tabulates from every fact of procedure 0, oldest first, and gives the number of cells. **`jathrungi_settle_unset`**
//! does it for the problem unset with its default starts. Both are refused for a listing that is.

/// What the driver asks of a library.
pub trait Library {
    fn name(&self) -> String;
    fn sheet(&mut self, listing: &[u8]) -> Vec<u8>;
    /// Empty where the library gives 0.
    fn tabulate(&mut self, listing: &[u8], relation: &[u8], facts: u8, run: &[u32]) -> Vec<u32>;
    fn settle_all(&mut self, listing: &[u8], relation: &[u8], facts: u8) -> u32;
    fn settle_unset(&mut self, listing: &[u8]) -> u32;
}

#[cfg(verified)]
mod linked {
    use super::Library;

    /// What comes of a call of the product.
    #[repr(C)]
    struct Answer {
        status: u8,
        question: u8,
        place: usize,
        value: usize,
    }

    impl Answer {
        /// What is given; 0 where it is refused. Memory is never wanting here.
        fn given(&self) -> usize {
            match self.status {
                0 => self.value,
                1 => 0,
                _ => panic!("out of memory: {} {}", self.question, self.place),
            }
        }
    }

    extern "C" {
        fn jathrungi_sheet(listing: *const u8, listing_len: usize, page: *mut u8, page_len: usize) -> Answer;
        fn tabulate(
            listing: *const u8,
            listing_len: usize,
            relation: *const u8,
            relation_len: usize,
            facts: u8,
            run: *const u32,
            run_len: usize,
            out: *mut u32,
            out_len: usize,
        ) -> usize;
        fn jathrungi_settle_all(
            listing: *const u8,
            listing_len: usize,
            relation: *const u8,
            relation_len: usize,
            facts: u8,
        ) -> Answer;
        fn jathrungi_settle_unset(listing: *const u8, listing_len: usize) -> Answer;
    }

    /// Outputs are lent with this many words behind them, which must stay as they are.
    const FENCE: usize = 16;
    const MARK: u32 = 0xdead_beef;

    pub struct Linked {
        bytes: Vec<u8>,
        words: Vec<u32>,
    }

    impl Linked {
        pub fn new() -> Linked {
            let mut l = Linked {
                bytes: vec![0; (1 << 16) + FENCE],
                words: vec![0; (20 << 20) + FENCE],
            };
            let (b, w) = (l.bytes.len() - FENCE, l.words.len() - FENCE);
            l.bytes[b..].fill(0xa5);
            l.words[w..].fill(MARK);
            l
        }
    }

    impl Library for Linked {
        fn name(&self) -> String {
            "the verified library".into()
        }

        fn sheet(&mut self, listing: &[u8]) -> Vec<u8> {
            let room = self.bytes.len() - FENCE;
            // SAFETY: the pointers and lengths are those of slices that outlive the call and do not overlap.
            let n = unsafe { jathrungi_sheet(listing.as_ptr(), listing.len(), self.bytes.as_mut_ptr(), room) }.given();
            assert!(
                n <= room && self.bytes[room..].iter().all(|b| *b == 0xa5),
                "sheet wrote beyond its memory"
            );
            self.bytes[..n].to_vec()
        }

        fn tabulate(&mut self, listing: &[u8], relation: &[u8], facts: u8, run: &[u32]) -> Vec<u32> {
            let room = self.words.len() - FENCE;
            // SAFETY: as above.
            let n = unsafe {
                tabulate(
                    listing.as_ptr(),
                    listing.len(),
                    relation.as_ptr(),
                    relation.len(),
                    facts,
                    run.as_ptr(),
                    run.len(),
                    self.words.as_mut_ptr(),
                    room,
                )
            };
            assert!(
                n <= room && self.words[room..].iter().all(|w| *w == MARK),
                "tabulate wrote beyond its memory"
            );
            self.words[..n].to_vec()
        }

        fn settle_all(&mut self, listing: &[u8], relation: &[u8], facts: u8) -> u32 {
            // SAFETY: as above.
            let answer = unsafe {
                jathrungi_settle_all(
                    listing.as_ptr(),
                    listing.len(),
                    relation.as_ptr(),
                    relation.len(),
                    facts,
                )
            };
            answer.given() as u32
        }

        fn settle_unset(&mut self, listing: &[u8]) -> u32 {
            // SAFETY: as above.
            unsafe { jathrungi_settle_unset(listing.as_ptr(), listing.len()) }.given() as u32
        }
    }
}

#[cfg(verified)]
pub fn linked() -> Option<Box<dyn Library>> {
    Some(Box::new(linked::Linked::new()))
}

#[cfg(not(verified))]
pub fn linked() -> Option<Box<dyn Library>> {
    None
}

/// A stand-in that answers by the simulation, to try the drivers without the library. With a harm of 1 or more it answers wrongly now and
/// then, each harm in another way, so that one can see that the comparison notices.
pub struct Stub {
    pub harm: u32,
}

impl Library for Stub {
    fn name(&self) -> String {
        format!(
            "a STAND-IN by the simulation itself, harm {}: this compares nothing verified",
            self.harm
        )
    }

    fn sheet(&mut self, listing: &[u8]) -> Vec<u8> {
        let mut out = crate::sheet::sheet(listing);
        if self.harm == 1 && listing.len().is_multiple_of(8) {
            let last = out.len() - 2;
            out[last] ^= 1;
        }
        out
    }

    fn tabulate(&mut self, listing: &[u8], relation: &[u8], facts: u8, run: &[u32]) -> Vec<u32> {
        let mut run = run.to_vec();
        let mut relation = relation.to_vec();
        match self.harm {
            2 => run.chunks_mut(3).filter(|c| c[0] == 3).for_each(|c| c[0] = 2),
            3 => {
                let i = relation.len() / 2;
                relation[i] = 0;
            }
            _ => {}
        }
        let mut out = crate::wire::tabulate(listing, &relation, facts, &run).unwrap_or_default();
        if self.harm == 4 {
            if let Some(last) = out.last_mut() {
                *last = 0;
            }
        }
        if self.harm == 5 && listing.len().is_multiple_of(8) {
            out.pop();
        }
        out
    }

    fn settle_all(&mut self, listing: &[u8], relation: &[u8], facts: u8) -> u32 {
        use crate::problem::Given;
        let Ok(prog) = crate::listing::read(listing) else {
            return 0;
        };
        let Some(r) = Given::from_bytes(facts as usize, prog.points(), relation) else {
            return 0;
        };
        let starts: Vec<_> = (0..r.facts).map(|d| (0, d)).collect();
        settle(&prog, &r, &starts)
    }

    fn settle_unset(&mut self, listing: &[u8]) -> u32 {
        use crate::problem::{Cells, Which};
        let Ok(prog) = crate::listing::read(listing) else {
            return 0;
        };
        let r = Cells::of(Which::Unset, &prog);
        settle(&prog, &r, &r.starts())
    }
}

fn settle<R: crate::problem::Relation>(prog: &crate::listing::Program, r: &R, starts: &[(usize, usize)]) -> u32 {
    use crate::table::{End, Table};
    let cells = prog.points() * r.facts() * r.facts();
    let mut t = Table::open(cells, prog.points(), r.facts()).unwrap();
    for &(p, d) in starts {
        t.sow(prog, r, p, d).unwrap();
    }
    t.work(prog, r, u32::MAX, End::Oldest).unwrap();
    t.settled
}
