//! Listings: the text form of a program, read after nine questions in their order.

/// Cells are numbered: globals first, local i is cell G + i.
#[derive(Clone, Copy, Debug, PartialEq, Eq)]
pub enum Stmt {
    Set { d: usize },
    Move { d: usize, s: usize },
    Add { d: usize, s: usize, t: usize },
    Read { d: usize },
    Send { s: usize },
    Goto { k: usize },
    Test { s: usize, k: usize },
    Call { d: usize, p: usize, s: usize },
    Ret { s: usize },
    Trim { d: usize, s: usize },
}

#[derive(Clone, Debug)]
pub struct Program {
    pub globals: usize,
    pub locals: usize,
    pub stmts: Vec<Stmt>,
    pub proc_of: Vec<usize>,
    pub entry: Vec<usize>,
    pub exit: Vec<usize>,
    /// The points that call each procedure, ascending.
    pub calls_of: Vec<Vec<usize>>,
}

impl Program {
    pub fn points(&self) -> usize {
        self.stmts.len()
    }

    pub fn procs(&self) -> usize {
        self.entry.len()
    }

    /// The cell that the `ret` of the procedure called at n gives.
    pub fn ret_cell_of_call(&self, n: usize) -> Option<usize> {
        if let Stmt::Call { p, .. } = self.stmts[n] {
            if let Stmt::Ret { s } = self.stmts[self.exit[p]] {
                return Some(s);
            }
        }
        None
    }

    /// The successors, in order.
    pub fn successors(&self, n: usize) -> ([usize; 2], usize) {
        match self.stmts[n] {
            Stmt::Goto { k } => ([k, 0], 1),
            Stmt::Test { k, .. } => ([n + 1, k], 2),
            Stmt::Call { .. } | Stmt::Ret { .. } => ([0, 0], 0),
            _ => ([n + 1, 0], 1),
        }
    }
}

/// The first no: the number of its question, and the place.
#[derive(Clone, Copy, Debug, PartialEq, Eq)]
pub struct No {
    pub question: u32,
    pub place: u32,
}

fn no<T>(question: u32, place: usize) -> Result<T, No> {
    Err(No {
        question,
        place: place as u32,
    })
}

#[derive(Clone, Copy)]
struct Name {
    global: bool,
    number: usize,
}

#[derive(Clone, Copy)]
enum Form {
    Set(Name),
    Move(Name, Name),
    Add(Name, Name, Name),
    Read(Name),
    Send(Name),
    Goto(usize),
    Test(Name, usize),
    Call(Name, usize, Name),
    Ret(Name),
    Trim(Name, Name),
}

fn number(w: &[u8]) -> Option<usize> {
    if w.is_empty() || w.len() > 4 || !w.iter().all(|b: &u8| b.is_ascii_digit()) {
        return None;
    }
    if w.len() > 1 && w[0] == b'0' {
        return None;
    }
    Some(w.iter().fold(0, |n, b| n * 10 + (b - b'0') as usize))
}

fn name(w: &[u8]) -> Option<Name> {
    let (first, rest) = w.split_first()?;
    let global = match first {
        b'g' => true,
        b'l' => false,
        _ => return None,
    };
    Some(Name {
        global,
        number: number(rest)?,
    })
}

fn header(line: &[u8]) -> Option<(usize, usize)> {
    let words: Vec<&[u8]> = line.split(|b| *b == b' ').collect();
    match words[..] {
        [b"cells", g, l] => Some((number(g)?, number(l)?)),
        _ => None,
    }
}

fn form(line: &[u8]) -> Option<Form> {
    let words: Vec<&[u8]> = line.split(|b| *b == b' ').collect();
    Some(match words[..] {
        [b"set", d] => Form::Set(name(d)?),
        [b"move", d, s] => Form::Move(name(d)?, name(s)?),
        [b"add", d, s, t] => Form::Add(name(d)?, name(s)?, name(t)?),
        [b"read", d] => Form::Read(name(d)?),
        [b"send", s] => Form::Send(name(s)?),
        [b"goto", k] => Form::Goto(number(k)?),
        [b"test", s, k] => Form::Test(name(s)?, number(k)?),
        [b"call", d, p, s] => Form::Call(name(d)?, number(p)?, name(s)?),
        [b"ret", s] => Form::Ret(name(s)?),
        [b"trim", d, s] => Form::Trim(name(d)?, name(s)?),
        _ => return None,
    })
}

impl Form {
    fn names(&self) -> Vec<Name> {
        match *self {
            Form::Set(a) | Form::Read(a) | Form::Send(a) | Form::Ret(a) | Form::Test(a, _) => vec![a],
            Form::Move(a, b) | Form::Trim(a, b) | Form::Call(a, _, b) => vec![a, b],
            Form::Add(a, b, c) => vec![a, b, c],
            Form::Goto(_) => vec![],
        }
    }
}

/// Reads a listing, or gives the first no. Each question is put to the whole file before the next.
pub fn read(text: &[u8]) -> Result<Program, No> {
    // 1
    if text.is_empty() || text.len() > 32_768 {
        return no(1, 0);
    }
    // 2
    let mut lines: Vec<&[u8]> = text.split(|b| *b == 10).collect();
    let open_end = !lines.last().unwrap().is_empty();
    if !open_end {
        lines.pop();
    }
    let mut counts = None;
    let mut forms = Vec::new();
    for (i, line) in lines.iter().enumerate() {
        let ended = !(open_end && i + 1 == lines.len());
        let formed = if i == 0 {
            counts = header(line);
            counts.is_some()
        } else {
            match form(line) {
                Some(f) => {
                    forms.push(f);
                    true
                }
                None => false,
            }
        };
        if !ended || !formed {
            return no(2, i + 1);
        }
    }
    let (g, l) = counts.unwrap();
    // 3
    if g > 31 || !(1..=32).contains(&l) {
        return no(3, 1);
    }
    // 4
    let n = forms.len();
    if !(1..=1000).contains(&n) {
        return no(4, 0);
    }
    // 5
    if !matches!(forms[n - 1], Form::Ret(_)) {
        return no(5, n + 1);
    }
    // 6, and which procedure each point is in
    let mut proc_of = Vec::new();
    let mut entry = vec![];
    let mut exit = vec![];
    let mut begins = true;
    for (i, f) in forms.iter().enumerate() {
        if begins {
            entry.push(i);
        }
        proc_of.push(exit.len());
        begins = matches!(f, Form::Ret(_));
        if begins {
            exit.push(i);
            if exit.len() == 61 {
                return no(6, i + 2);
            }
        }
    }
    // 7
    for (i, f) in forms.iter().enumerate() {
        for c in f.names() {
            if c.number >= if c.global { g } else { l } {
                return no(7, i + 2);
            }
        }
    }
    // 8
    for (i, f) in forms.iter().enumerate() {
        if let Form::Goto(k) | Form::Test(_, k) = *f {
            if k >= n || proc_of[k] != proc_of[i] {
                return no(8, i + 2);
            }
        }
    }
    // 9
    for (i, f) in forms.iter().enumerate() {
        if let Form::Call(_, p, _) = *f {
            if p >= exit.len() {
                return no(9, i + 2);
            }
        }
    }
    let cell = |c: Name| if c.global { c.number } else { g + c.number };
    let mut calls_of = vec![Vec::new(); exit.len()];
    let mut stmts = Vec::new();
    for (i, f) in forms.iter().enumerate() {
        stmts.push(match *f {
            Form::Set(d) => Stmt::Set { d: cell(d) },
            Form::Move(d, s) => Stmt::Move { d: cell(d), s: cell(s) },
            Form::Add(d, s, t) => Stmt::Add {
                d: cell(d),
                s: cell(s),
                t: cell(t),
            },
            Form::Read(d) => Stmt::Read { d: cell(d) },
            Form::Send(s) => Stmt::Send { s: cell(s) },
            Form::Goto(k) => Stmt::Goto { k },
            Form::Test(s, k) => Stmt::Test { s: cell(s), k },
            Form::Call(d, p, s) => {
                calls_of[p].push(i);
                Stmt::Call {
                    d: cell(d),
                    p,
                    s: cell(s),
                }
            }
            Form::Ret(s) => Stmt::Ret { s: cell(s) },
            Form::Trim(d, s) => Stmt::Trim { d: cell(d), s: cell(s) },
        });
    }
    Ok(Program {
        globals: g,
        locals: l,
        stmts,
        proc_of,
        entry,
        exit,
        calls_of,
    })
}
