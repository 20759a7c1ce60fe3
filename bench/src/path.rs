//! Is a row of words a call-matched path? The path is walked forward with an explicit stack of open calls.

use crate::listing::{Program, Stmt};
use crate::problem::{Kind, Relation};

#[derive(Clone, Copy, Debug, PartialEq, Eq)]
pub struct Word {
    pub kind: u32,
    pub point: usize,
    pub fact: usize,
}

pub fn encode(w: Word) -> u32 {
    w.kind << 29 | (w.point as u32) << 19 | (w.fact as u32) << 13
}

pub fn decode(w: u32) -> Option<Word> {
    let kind = w >> 29;
    if w & 0x1fff != 0 || !(1..=5).contains(&kind) {
        return None;
    }
    Some(Word {
        kind,
        point: (w >> 19 & 0x3ff) as usize,
        fact: (w >> 13 & 0x3f) as usize,
    })
}

/// How many calls of a path are open at once at most, of those that it closes.
pub fn nested(words: &[u32]) -> usize {
    let mut open: Vec<usize> = vec![]; // for each open call, how deep it goes inside, itself included
    let mut most = 0;
    for w in words {
        match w >> 29 {
            4 => open.push(1),
            5 => {
                let deep = open.pop().unwrap_or(0);
                most = most.max(deep);
                if let Some(outer) = open.last_mut() {
                    *outer = (*outer).max(deep + 1);
                }
            }
            _ => {}
        }
    }
    most
}

/// Nothing, or the place of the first word that is no lawful move (0 for no words at all).
pub fn check<R: Relation>(prog: &Program, r: &R, words: &[u32]) -> Result<(), u32> {
    let f = r.facts();
    let mut open: Vec<usize> = Vec::new();
    let mut now: Option<(usize, usize)> = None;
    if words.is_empty() {
        return Err(0);
    }
    for (i, &word) in words.iter().enumerate() {
        let bad = Err(i as u32);
        let Some(w) = decode(word) else { return bad };
        if w.point >= prog.points() || w.fact >= f {
            return bad;
        }
        let Some((n, d)) = now else {
            if w.kind != 1 || !prog.entry.contains(&w.point) {
                return bad;
            }
            now = Some((w.point, w.fact));
            continue;
        };
        let yes = match w.kind {
            2 => {
                let (to, many) = prog.successors(n);
                to[..many].contains(&w.point) && r.follows(prog, Kind::Step, n, d, w.fact)
            }
            3 => {
                matches!(prog.stmts[n], Stmt::Call { .. })
                    && w.point == n + 1
                    && r.follows(prog, Kind::Past, n, d, w.fact)
            }
            4 => match prog.stmts[n] {
                Stmt::Call { p, .. } => {
                    open.push(n);
                    w.point == prog.entry[p] && r.follows(prog, Kind::Call, n, d, w.fact)
                }
                _ => false,
            },
            5 => match (prog.stmts[n], open.pop()) {
                (Stmt::Ret { .. }, Some(c)) => {
                    let callee = match prog.stmts[c] {
                        Stmt::Call { p, .. } => p,
                        _ => unreachable!(),
                    };
                    prog.exit[callee] == n && w.point == c + 1 && r.follows(prog, Kind::Return, c, d, w.fact)
                }
                _ => false,
            },
            _ => false,
        };
        if !yes {
            return bad;
        }
        now = Some((w.point, w.fact));
    }
    Ok(())
}
