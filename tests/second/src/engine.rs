//! A plain second engine, written from documents 01 and 02 alone: a tree, the big-step meaning, the instruction lists
//! and the model engine. It shares nothing with the proved engine and is as simple as possible; speed does not matter
//! here.

use crate::signature::*;
use std::cell::{Cell, RefCell};

#[derive(Clone, Debug, PartialEq)]
pub enum Expr {
    Con(i32),
    Name(usize),
    /// Until compile fills it in.
    Param(usize),
    App(u8, Vec<Expr>),
}

#[derive(Clone, Debug, PartialEq)]
pub struct Handler {
    pub event: usize,
    pub later: bool,
    pub expr: Expr,
}

#[derive(Clone, Debug, PartialEq)]
pub enum Behaviour {
    Passive(Expr),
    Active(i32, Vec<Handler>),
}

#[derive(Clone, Debug, PartialEq)]
pub struct Sheet {
    pub ranks: Vec<u8>,
    pub behaviours: Vec<Behaviour>,
    /// Document 02, M-107: who may send each event and see each behaviour, bit n for player n, where the sheet says so.
    pub senders: Vec<Option<u8>>,
    pub viewers: Vec<Option<u8>>,
}

// ---- arithmetic

/// The quotient, one less where a fraction was dropped from a negative one; 0 by zero.
fn floor(n: i64, d: i64) -> i64 {
    if d == 0 {
        return 0;
    }
    if n % d != 0 && (n < 0) != (d < 0) {
        n / d - 1
    } else {
        n / d
    }
}

pub fn apply(f: u8, a: &[i32]) -> i32 {
    let t = |b: bool| if b { 1 } else { 0 };
    match f {
        OR => t(a[0] != 0 || a[1] != 0),
        AND => t(a[0] != 0 && a[1] != 0),
        NOT => t(a[0] == 0),
        ADD => (a[0] as i64 + a[1] as i64) as i32,
        SUBTRACT => (a[0] as i64 - a[1] as i64) as i32,
        MULTIPLY => (a[0] as i64 * a[1] as i64) as i32,
        DIVIDE => floor(a[0] as i64, a[1] as i64) as i32,
        ABOVE => t(a[0] > a[1]),
        AT_LEAST => t(a[0] >= a[1]),
        BELOW => t(a[0] < a[1]),
        AT_MOST => t(a[0] <= a[1]),
        EQUAL => t(a[0] == a[1]),
        UNEQUAL => t(a[0] != a[1]),
        IF => {
            if a[0] != 0 {
                a[1]
            } else {
                a[2]
            }
        }
        _ => unreachable!(),
    }
}

/// Document 02, M-104: the exact whole-number result is not the 32-bit one, or the divisor is zero.
pub fn over(f: u8, a: &[i32]) -> bool {
    let exact = match f {
        ADD => a[0] as i64 + a[1] as i64,
        SUBTRACT => a[0] as i64 - a[1] as i64,
        MULTIPLY => a[0] as i64 * a[1] as i64,
        DIVIDE if a[1] == 0 => return true,
        DIVIDE => floor(a[0] as i64, a[1] as i64),
        _ => return false,
    };
    i32::try_from(exact).is_err()
}

// ---- reading a sheet: the first fault from left to right

/// The field at the front of `s`: tag, value, rest. 4 for its header, 5, 4 for its length.
fn field(s: &[u8], lo: u8, hi: u8) -> Result<(u8, &[u8], &[u8]), u32> {
    if s.len() < 3 {
        return Err(4);
    }
    if s[0] < lo || s[0] > hi {
        return Err(5);
    }
    let n = s[1] as usize * 256 + s[2] as usize;
    if n > s.len() - 3 {
        return Err(4);
    }
    Ok((s[0], &s[3..3 + n], &s[3 + n..]))
}

fn word(v: &[u8]) -> i32 {
    i32::from_be_bytes([v[0], v[1], v[2], v[3]])
}

fn expr(s: &[u8], nesting: usize) -> Result<(Expr, &[u8]), u32> {
    let (tag, v, rest) = field(s, 0x10, 0x13)?;
    if nesting == 17 {
        return Err(9);
    }
    match tag {
        0x10 if v.len() != 4 => Err(6),
        0x10 => Ok((Expr::Con(word(v)), rest)),
        0x11 if v.len() != 1 => Err(6),
        0x11 => Ok((Expr::Name(v[0] as usize), rest)),
        0x13 if v.len() != 1 => Err(6),
        0x13 if v[0] > 7 => Err(8),
        0x13 => Ok((Expr::Param(v[0] as usize), rest)),
        _ => {
            if v.is_empty() {
                return Err(6);
            }
            if v[0] < 1 || v[0] > LAST {
                return Err(8);
            }
            let mut args = Vec::new();
            let mut left = &v[1..];
            for _ in 0..arity(v[0]) {
                let (a, l) = expr(left, nesting + 1)?;
                args.push(a);
                left = l;
            }
            if !left.is_empty() {
                return Err(6);
            }
            Ok((Expr::App(v[0], args), rest))
        }
    }
}

fn whole_expr(v: &[u8]) -> Result<Expr, u32> {
    let (e, left) = expr(v, 1)?;
    if left.is_empty() {
        Ok(e)
    } else {
        Err(6)
    }
}

fn handler(v: &[u8], events: usize, so_far: &[Handler]) -> Result<Handler, u32> {
    if v.is_empty() {
        return Err(6);
    }
    let event = v[0] as usize;
    if event >= events {
        return Err(8);
    }
    if v.len() < 2 {
        return Err(6);
    }
    if v[1] > 1 {
        return Err(8);
    }
    if so_far.iter().any(|h| h.event == event) {
        return Err(10);
    }
    Ok(Handler { event, later: v[1] == 1, expr: whole_expr(&v[2..])? })
}

/// What is left of a behaviour's value: a field 08 of length 1 and nothing else, or nothing. Other bytes are 6, as are
/// all past the field.
fn ending(left: &[u8]) -> Result<Option<u8>, u32> {
    if left.is_empty() {
        return Ok(None);
    }
    if left[0] != 8 {
        return Err(6);
    }
    let (_, v, over) = field(left, 8, 8)?;
    if v.len() != 1 || !over.is_empty() {
        return Err(6);
    }
    Ok(Some(v[0]))
}

fn passive(v: &[u8]) -> Result<(Behaviour, Option<u8>), u32> {
    let (e, left) = expr(v, 1)?;
    Ok((Behaviour::Passive(e), ending(left)?))
}

fn active(v: &[u8], events: usize) -> Result<(Behaviour, Option<u8>), u32> {
    let (_, w, mut rest) = field(v, 4, 4)?;
    if w.len() != 4 {
        return Err(6);
    }
    let mut hs = Vec::new();
    while !rest.is_empty() && rest[0] != 8 {
        let (_, v, r) = field(rest, 5, 5)?;
        let h = handler(v, events, &hs)?;
        hs.push(h);
        rest = r;
    }
    Ok((Behaviour::Active(word(w), hs), ending(rest)?))
}

/// Document 02, M-110: the cell count at the front of a row's value, and the rest; `first` is the number of its first
/// cell.
fn cell_count(v: &[u8], first: usize) -> Result<(usize, &[u8]), u32> {
    if v.is_empty() {
        return Err(6);
    }
    if v[0] < 2 || v[0] > 16 {
        return Err(8);
    }
    if first + v[0] as usize > 64 {
        return Err(7);
    }
    Ok((v[0] as usize, &v[1..]))
}

/// An expression in cell `place` of a row of `count`: the first cell of a row with the same count means the cell at the
/// same place.
fn in_cell(e: &Expr, rows: &[(usize, usize)], count: usize, place: usize) -> Expr {
    match e {
        Expr::Name(m) if rows.contains(&(*m, count)) => Expr::Name(m + place),
        Expr::App(f, a) => Expr::App(*f, a.iter().map(|x| in_cell(x, rows, count, place)).collect()),
        _ => e.clone(),
    }
}

/// The sheet in the bytes, its rows written out.
pub fn read(s: &[u8]) -> Result<Sheet, u32> {
    let mut sheet = Sheet { ranks: vec![], behaviours: vec![], senders: vec![], viewers: vec![] };
    // the first cell and the count of each row
    let mut rows = Vec::new();
    let mut s = s;
    while !s.is_empty() {
        let lowest = if sheet.behaviours.is_empty() { 1 } else { 2 };
        let (tag, v, rest) = if s[0] == 6 { field(s, 6, 6)? } else { field(s, lowest, 3)? };
        if tag == 1 {
            if sheet.ranks.len() == 32 {
                return Err(7);
            }
            if v.is_empty() || v.len() > 2 {
                return Err(6);
            }
            if v[0] > 15 {
                return Err(8);
            }
            sheet.ranks.push(v[0]);
            sheet.senders.push(v.get(1).copied());
        } else {
            let first = sheet.behaviours.len();
            if first == 64 {
                return Err(7);
            }
            let (count, v) = if tag == 6 { cell_count(v, first)? } else { (1, v) };
            let (b, viewer) = if tag == 2 { passive(v)? } else { active(v, sheet.ranks.len())? };
            if tag == 6 {
                rows.push((first, count));
            }
            for _ in 0..count {
                sheet.behaviours.push(b.clone());
                sheet.viewers.push(viewer);
            }
        }
        s = rest;
    }
    for &(first, count) in &rows {
        for place in 0..count {
            if let Behaviour::Active(_, hs) = &mut sheet.behaviours[first + place] {
                hs.iter_mut().for_each(|h| h.expr = in_cell(&h.expr, &rows, count, place));
            }
        }
    }
    Ok(sheet)
}

fn names(e: &Expr, out: &mut Vec<usize>) {
    match e {
        Expr::Con(_) | Expr::Param(_) => {}
        Expr::Name(i) => out.push(*i),
        Expr::App(_, a) => a.iter().for_each(|x| names(x, out)),
    }
}

/// An expression with each parameter as the constant lent for it.
fn filled(e: &Expr, value: &dyn Fn(usize) -> i32) -> Expr {
    match e {
        Expr::Param(n) => Expr::Con(value(*n)),
        Expr::App(f, a) => Expr::App(*f, a.iter().map(|x| filled(x, value)).collect()),
        _ => e.clone(),
    }
}

fn size(e: &Expr) -> usize {
    match e {
        Expr::App(_, a) => 1 + a.iter().map(size).sum::<usize>(),
        _ => 1,
    }
}

/// What a behaviour does on an event (`None`: no event).
pub enum Does<'a> {
    Follows(&'a Expr),
    Takes(&'a Expr),
    Defers(&'a Expr),
    Keeps,
}

impl Sheet {
    pub fn does(&self, event: Option<usize>, i: usize) -> Does<'_> {
        match &self.behaviours[i] {
            Behaviour::Passive(e) => Does::Follows(e),
            Behaviour::Active(_, hs) => match hs.iter().find(|h| Some(h.event) == event) {
                None => Does::Keeps,
                Some(h) if h.later => Does::Defers(&h.expr),
                Some(h) => Does::Takes(&h.expr),
            },
        }
    }

    /// What i depends on.
    fn needs(&self, event: Option<usize>, i: usize) -> Vec<usize> {
        let mut out = Vec::new();
        match self.does(event, i) {
            Does::Follows(e) => names(e, &mut out),
            Does::Takes(e) => {
                names(e, &mut out);
                out.retain(|&j| j != i);
            }
            _ => {}
        }
        out
    }

    fn reaches(&self, event: Option<usize>, from: usize, to: usize) -> bool {
        let mut seen = vec![false; self.behaviours.len()];
        let mut todo = self.needs(event, from);
        while let Some(i) = todo.pop() {
            if i == to {
                return true;
            }
            if !seen[i] {
                seen[i] = true;
                todo.extend(self.needs(event, i));
            }
        }
        false
    }

    /// The events, and none.
    fn cases(&self) -> Vec<Option<usize>> {
        (0..self.ranks.len()).map(Some).chain([None]).collect()
    }

    fn cyclic(&self) -> bool {
        self.cases().iter().any(|&e| (0..self.behaviours.len()).any(|i| self.reaches(e, i, i)))
    }

    /// The least number of behaviours in a circle, over all events and none: from each behaviour outward, as far as it
    /// takes to come back.
    pub fn shortest(&self) -> Option<usize> {
        let n = self.behaviours.len();
        let back = |e: Option<usize>, i: usize| {
            let mut seen = vec![false; n];
            let mut front = vec![i];
            (1..=n).find(|_| {
                let mut next: Vec<usize> = front
                    .iter()
                    .flat_map(|&j| self.needs(e, j))
                    .filter(|&j| !std::mem::replace(&mut seen[j], true))
                    .collect();
                std::mem::swap(&mut front, &mut next);
                front.contains(&i)
            })
        };
        self.cases().iter().flat_map(|&e| (0..n).filter_map(move |i| back(e, i))).min()
    }

    /// Whether each of these depends on the next, and the last on the first.
    pub fn is_circle(&self, event: Option<usize>, list: &[usize]) -> bool {
        !list.is_empty()
            && list
                .iter()
                .zip(list.iter().cycle().skip(1))
                .all(|(&i, j)| i < self.behaviours.len() && self.needs(event, i).contains(j))
    }

    fn unknown(&self) -> bool {
        let mut all = Vec::new();
        for b in &self.behaviours {
            match b {
                Behaviour::Passive(e) => names(e, &mut all),
                Behaviour::Active(_, hs) => hs.iter().for_each(|h| names(&h.expr, &mut all)),
            }
        }
        all.iter().any(|&i| i >= self.behaviours.len())
    }

    /// The sheet with each parameter as the constant that stands for it.
    fn filled(&self, value: &dyn Fn(usize) -> i32) -> Sheet {
        let one = |b: &Behaviour| match b {
            Behaviour::Passive(e) => Behaviour::Passive(filled(e, value)),
            Behaviour::Active(s, hs) => Behaviour::Active(
                *s,
                hs.iter().map(|h| Handler { expr: filled(&h.expr, value), ..h.clone() }).collect(),
            ),
        };
        Sheet { behaviours: self.behaviours.iter().map(one).collect(), ..self.clone() }
    }

    /// 01's count, by its formula.
    pub fn count(&self, event: usize) -> usize {
        4 + (0..self.behaviours.len())
            .map(|i| match self.does(Some(event), i) {
                Does::Follows(e) => 2 + 2 * (size(e) + 1),
                Does::Takes(e) => 2 + size(e) + 1,
                Does::Defers(e) => 2 + size(e) + 2,
                Does::Keeps => 0,
            })
            .sum::<usize>()
    }

    // ---- the meaning of one event

    /// `mark` is set where some application runs over.
    fn value(&self, e: &Expr, look: &dyn Fn(usize) -> i32, mark: &Cell<bool>) -> i32 {
        match e {
            Expr::Con(w) => *w,
            Expr::Name(i) => look(*i),
            Expr::Param(_) => unreachable!("filled in"),
            Expr::App(f, a) => {
                let v: Vec<i32> = a.iter().map(|x| self.value(x, look, mark)).collect();
                mark.set(mark.get() || over(*f, &v));
                apply(*f, &v)
            }
        }
    }

    /// First-phase value of i, kept once it is known.
    fn first(
        &self,
        event: Option<usize>,
        board: &[i32],
        i: usize,
        known: &RefCell<Vec<Option<i32>>>,
        mark: &Cell<bool>,
    ) -> i32 {
        if let Some(v) = known.borrow()[i] {
            return v;
        }
        let v = match self.does(event, i) {
            Does::Follows(e) => self.value(e, &|j| self.first(event, board, j, known, mark), mark),
            Does::Takes(e) => {
                self.value(e, &|j| if j == i { board[i] } else { self.first(event, board, j, known, mark) }, mark)
            }
            _ => board[i],
        };
        known.borrow_mut()[i] = Some(v);
        v
    }

    fn first_phase(&self, event: Option<usize>, board: &[i32], mark: &Cell<bool>) -> Vec<i32> {
        let known = RefCell::new(vec![None; board.len()]);
        (0..board.len()).map(|i| self.first(event, board, i, &known, mark)).collect()
    }

    /// The board after an event: later handlers over first-phase values, all together; then the passives again. And
    /// whether some application ran over.
    pub fn event(&self, event: usize, board: &[i32]) -> (Vec<i32>, bool) {
        let mark = Cell::new(false);
        let one = self.first_phase(Some(event), board, &mark);
        let two: Vec<i32> = (0..board.len())
            .map(|i| match self.does(Some(event), i) {
                Does::Defers(e) => self.value(e, &|j| one[j], &mark),
                _ => one[i],
            })
            .collect();
        (self.first_phase(None, &two, &mark), mark.get())
    }

    pub fn fresh(&self) -> Vec<i32> {
        let start: Vec<i32> = self
            .behaviours
            .iter()
            .map(|b| match b {
                Behaviour::Active(s, _) => *s,
                _ => 0,
            })
            .collect();
        self.first_phase(None, &start, &Cell::new(false))
    }

    /// Document 02, M-112: the board with which a round of the old sheet goes on under this one.
    pub fn carried(&self, old: &Sheet, board: &[i32]) -> Vec<i32> {
        let begun: Vec<i32> = (0..self.behaviours.len())
            .map(|i| match (&self.behaviours[i], old.behaviours.get(i)) {
                (Behaviour::Active(..), Some(Behaviour::Active(..))) => board[i],
                (Behaviour::Active(s, _), _) => *s,
                _ => 0,
            })
            .collect();
        self.first_phase(None, &begun, &Cell::new(false))
    }

    // ---- the instruction list

    fn in_c(&self, event: usize, i: usize) -> bool {
        !matches!(self.does(Some(event), i), Does::Keeps)
    }

    fn postfix(&self, event: usize, e: &Expr, out: &mut Vec<Instr>) {
        match e {
            Expr::Con(w) => out.push(Instr::Push(*w)),
            Expr::Name(i) if self.in_c(event, *i) => out.push(Instr::Fetch(*i)),
            Expr::Name(i) => out.push(Instr::Load(*i)),
            Expr::Param(_) => unreachable!("filled in"),
            Expr::App(f, a) => {
                a.iter().for_each(|x| self.postfix(event, x, out));
                out.push(Instr::Apply(*f));
            }
        }
    }

    /// The lowest number first among those whose needs are met.
    fn order(&self, event: usize) -> Vec<usize> {
        let n = self.behaviours.len();
        let early = |i: usize| matches!(self.does(Some(event), i), Does::Follows(_) | Does::Takes(_));
        let mut order = Vec::new();
        while let Some(i) = (0..n).find(|&i| {
            early(i)
                && !order.contains(&i)
                && self.needs(Some(event), i).iter().all(|j| !early(*j) || order.contains(j))
        }) {
            order.push(i);
        }
        order
    }

    pub fn code(&self, event: usize) -> Vec<Instr> {
        let n = self.behaviours.len();
        let c: Vec<usize> = (0..n).filter(|&i| self.in_c(event, i)).collect();
        let order = self.order(event);
        let mut out = vec![Instr::Off];
        out.extend(c.iter().map(|&i| Instr::Copy(i)));
        out.push(Instr::On);
        for &i in &order {
            if let Does::Follows(e) | Does::Takes(e) = self.does(Some(event), i) {
                self.postfix(event, e, &mut out);
                out.push(Instr::Save(i));
            }
        }
        for i in 0..n {
            if let Does::Defers(e) = self.does(Some(event), i) {
                self.postfix(event, e, &mut out);
                out.push(Instr::Defer(i));
            }
        }
        out.extend((0..n).filter(|&i| matches!(self.does(Some(event), i), Does::Defers(_))).map(Instr::Move));
        for &i in &order {
            if let Does::Follows(e) = self.does(Some(event), i) {
                self.postfix(event, e, &mut out);
                out.push(Instr::Save(i));
            }
        }
        out.push(Instr::Off);
        out.extend(c.iter().map(|&i| Instr::Restore(i)));
        out.push(Instr::On);
        out
    }

    /// The second time over the passives: event 0's, or of no event where none is declared.
    pub fn passives(&self) -> Vec<Instr> {
        let mut out = Vec::new();
        for i in self.order(0) {
            if let Behaviour::Passive(e) = &self.behaviours[i] {
                self.postfix(0, e, &mut out);
                out.push(Instr::Save(i));
            }
        }
        out
    }

    /// The actives that an event writes, and those that it reads.
    fn writes(&self, event: usize) -> Vec<usize> {
        (0..self.behaviours.len())
            .filter(|&i| matches!(self.does(Some(event), i), Does::Takes(_) | Does::Defers(_)))
            .collect()
    }

    fn reads(&self, event: usize) -> Vec<usize> {
        let mut todo = Vec::new();
        for i in 0..self.behaviours.len() {
            if let Does::Takes(e) | Does::Defers(e) = self.does(Some(event), i) {
                names(e, &mut todo);
            }
        }
        let mut seen = Vec::new();
        while let Some(i) = todo.pop() {
            if !seen.contains(&i) {
                seen.push(i);
                if let Behaviour::Passive(e) = &self.behaviours[i] {
                    names(e, &mut todo);
                }
            }
        }
        seen.retain(|&i| matches!(self.behaviours[i], Behaviour::Active(..)));
        seen
    }

    /// Of every two events of unequal rank that are not independent the first pair by number, and the least behaviour
    /// that one of the two writes and the other reads or writes.
    pub fn clash(&self) -> Option<(usize, usize, usize)> {
        let n = self.ranks.len();
        let of: Vec<[Vec<usize>; 2]> = (0..n).map(|e| [self.writes(e), self.reads(e)]).collect();
        let writes = |e: usize, i: &usize| of[e][0].contains(i);
        let touches = |e: usize, i: &usize| writes(e, i) || of[e][1].contains(i);
        let pairs =
            (0..n).flat_map(|e| (e + 1..n).map(move |f| (e, f))).filter(|(e, f)| self.ranks[*e] != self.ranks[*f]);
        let mut all = pairs.filter_map(|(e, f)| {
            let both = |i: &usize| writes(e, i) && touches(f, i) || writes(f, i) && touches(e, i);
            (0..self.behaviours.len()).find(both).map(|i| (e, f, i))
        });
        all.next()
    }

    /// Document 02, M-107: what a behaviour depends on for a player: each name in its expression, or in a handler of
    /// either phase.
    fn mentions(&self, i: usize) -> Vec<usize> {
        let mut out = vec![];
        match &self.behaviours[i] {
            Behaviour::Passive(e) => names(e, &mut out),
            Behaviour::Active(_, hs) => hs.iter().for_each(|h| names(&h.expr, &mut out)),
        }
        out
    }

    /// Whether a behaviour depends on one that this player may not see, directly or by a chain.
    fn tells(&self, i: usize, who: u32) -> bool {
        let (mut todo, mut seen) = (vec![i], vec![]);
        while let Some(j) = todo.pop() {
            if !may(self.viewers[j], who) {
                return true;
            }
            if !seen.contains(&j) {
                seen.push(j);
                todo.extend(self.mentions(j));
            }
        }
        false
    }

    /// The first behaviour that this player sees and that names a hidden one, and the least that it names; none where
    /// none that the player sees depends on a hidden one.
    pub fn leak(&self, who: u32) -> Option<(usize, usize)> {
        let hidden = |j: &usize| !may(self.viewers[*j], who);
        let seen = || (0..self.behaviours.len()).filter(|i| !hidden(i));
        let named = seen().find_map(|i| self.mentions(i).into_iter().filter(hidden).min().map(|j| (i, j)));
        assert_eq!(
            named.is_some(),
            seen().any(|i| self.tells(i, who)),
            "a chain to a hidden one leaves the seen ones somewhere"
        );
        named
    }

    /// What a behaviour depends on, by a name in its expression or in a handler of either phase, directly or by a
    /// chain; itself included.
    pub fn depends(&self, b: usize) -> Vec<usize> {
        let (mut todo, mut seen) = (vec![b], vec![]);
        while let Some(i) = todo.pop() {
            if !seen.contains(&i) {
                seen.push(i);
                todo.extend(self.mentions(i));
            }
        }
        seen
    }

    /// Whether an expression names a behaviour, directly or through passives.
    fn names_it(&self, e: &Expr, b: usize) -> bool {
        let (mut todo, mut seen) = (vec![], vec![]);
        names(e, &mut todo);
        while let Some(i) = todo.pop() {
            if !seen.contains(&i) {
                seen.push(i);
                if let Behaviour::Passive(e) = &self.behaviours[i] {
                    names(e, &mut todo);
                }
            }
        }
        seen.contains(&b)
    }

    /// Whether a handler of b adds to it: the value is b's plus what it is for b = 0.
    fn adds(&self, b: usize, e: &Expr) -> bool {
        let without = |e: &Expr| !self.names_it(e, b);
        match e {
            Expr::Name(i) => *i == b,
            Expr::App(ADD, x) => self.adds(b, &x[0]) && without(&x[1]) || self.adds(b, &x[1]) && without(&x[0]),
            Expr::App(SUBTRACT, x) => self.adds(b, &x[0]) && without(&x[1]),
            Expr::App(IF, x) => without(&x[0]) && self.adds(b, &x[1]) && self.adds(b, &x[2]),
            _ => false,
        }
    }

    /// The handler that an event has in a behaviour, of either phase.
    fn handled(&self, event: usize, b: usize) -> Option<&Expr> {
        match self.does(Some(event), b) {
            Does::Takes(e) | Does::Defers(e) => Some(e),
            _ => None,
        }
    }

    /// Of an event and a behaviour b of `within`: whether the event writes b, whether it reads b in a handler of one of
    /// `within`, whether in one of another than b, and whether its handler of b adds to b.
    fn touch(&self, event: usize, b: usize, within: &[usize]) -> [bool; 4] {
        let reads = |i: &usize| self.handled(event, *i).is_some_and(|e| self.names_it(e, b));
        let active = matches!(self.behaviours[b], Behaviour::Active(..));
        [
            self.handled(event, b).is_some(),
            active && within.iter().any(reads),
            active && within.iter().any(|i| *i != b && reads(i)),
            self.handled(event, b).is_some_and(|e| self.adds(b, e)),
        ]
    }

    /// Whether two events meet at a behaviour b of `within`.
    fn meets(&self, e: usize, f: usize, b: usize, within: &[usize]) -> bool {
        let ([we, re, oe, ae], [wf, rf, of, af]) = (self.touch(e, b, within), self.touch(f, b, within));
        let both_add = ae && af && !oe && !of;
        (we && (wf || rf) || wf && (we || re)) && !both_add
    }

    /// For one behaviour: the first two events of unequal rank, by number, that meet at something it depends on, and
    /// the least such.
    pub fn clash_for(&self, b: usize) -> Option<(usize, usize, usize)> {
        let (n, within) = (self.ranks.len(), self.depends(b));
        let pairs = (0..n).flat_map(|e| (e + 1..n).map(move |f| (e, f)));
        let mut all = pairs
            .filter(|(e, f)| self.ranks[*e] != self.ranks[*f])
            .filter_map(|(e, f)| within.iter().filter(|i| self.meets(e, f, **i, &within)).min().map(|i| (e, f, *i)));
        all.next()
    }

    /// Two events that are not independent: the least behaviour at which they meet, else the least that they share, and
    /// of it, as bits: the first writes it, the second does, the first reads it, the second does, both only add to it,
    /// they meet there.
    pub fn pair(&self, e: usize, f: usize) -> Option<(usize, u32)> {
        let all: Vec<usize> = (0..self.behaviours.len()).collect();
        let of = |b: usize| (self.touch(e, b, &all), self.touch(f, b, &all));
        let shares = |b: &usize| {
            let ([we, re, ..], [wf, rf, ..]) = of(*b);
            we && (wf || rf) || wf && (we || re)
        };
        let meet = all.iter().find(|b| self.meets(e, f, **b, &all));
        let b = *meet.or_else(|| all.iter().find(|b| shares(b)))?;
        let ([we, re, oe, ae], [wf, rf, of, af]) = of(b);
        let bits = [we, wf, re, rf, ae && af && !oe && !of, meet.is_some()];
        Some((b, bits.iter().enumerate().map(|(k, bit)| (*bit as u32) << k).sum()))
    }

    pub fn independent(&self, e: usize, f: usize) -> bool {
        let apart = |e: usize, f: usize| {
            self.writes(e).iter().all(|i| !self.reads(f).contains(i) && !self.writes(f).contains(i))
        };
        apart(e, f) && apart(f, e)
    }
}

/// compile, for a table of full size: the sheet with its parameters filled in.
pub fn compile(s: &[u8], params: &[u8]) -> Result<Sheet, u32> {
    if s.len() > 8192 {
        return Err(3);
    }
    let sheet = read(s)?;
    if sheet.unknown() {
        return Err(11);
    }
    if sheet != sheet.filled(&|_| 0) && params.len() < 32 {
        return Err(20);
    }
    let sheet = sheet.filled(&|n| word(&params[4 * n..]));
    if sheet.cyclic() {
        return Err(12);
    }
    if (0..sheet.ranks.len()).map(|e| sheet.count(e)).sum::<usize>() > 4096 {
        return Err(13);
    }
    Ok(sheet)
}

#[derive(Clone, Copy, Debug, PartialEq)]
pub enum Instr {
    Off,
    On,
    Copy(usize),
    Restore(usize),
    Push(i32),
    Load(usize),
    Fetch(usize),
    Apply(u8),
    Save(usize),
    Defer(usize),
    Move(usize),
}

// ---- players: "Where either is missing, everybody may. The host may do everything"

pub fn may(said: Option<u8>, who: u32) -> bool {
    who == 0 || said.map_or(true, |byte| byte & (1 << who) != 0)
}

// ---- the model engine

/// An event and its player; a behaviour and its player (document 02, M-107).
#[derive(Clone, Copy, Debug, PartialEq)]
pub enum Call {
    Arrive(u32, u32),
    Step,
    Board(u32, u32),
}

/// Number, event and player of an arrival taken in.
pub type Arrival = (u32, usize, u32);

#[derive(Clone, Copy, Debug, PartialEq)]
pub enum Answer {
    Refused(u32),
    Taken,
    Value(i32),
    Idle,
    Ran,
    Started(Arrival),
    /// With M-104's mark.
    Committed(Arrival, bool),
    BrokeIn(Arrival),
}

#[derive(Clone)]
pub struct Model {
    pub sheet: Sheet,
    pub code: Vec<Vec<Instr>>,
    pub board: Vec<i32>,
    pub taken: u32,
    pub waiting: Vec<Arrival>,
    /// With its count of instructions done.
    pub running: Option<(Arrival, usize)>,
    pub scratch: Vec<Option<i32>>,
    pub stack: Vec<i32>,
    pub places: Vec<Option<i32>>,
    /// Some application ran over since the running one started.
    pub mark: bool,
}

impl Model {
    pub fn new(sheet: Sheet) -> Model {
        let board = sheet.fresh();
        let n = board.len();
        let code = (0..sheet.ranks.len()).map(|e| sheet.code(e)).collect();
        Model {
            sheet,
            code,
            board,
            taken: 0,
            waiting: vec![],
            running: None,
            scratch: vec![None; n],
            stack: vec![],
            places: vec![None; n],
            mark: false,
        }
    }

    fn rank(&self, e: usize) -> u8 {
        self.sheet.ranks[e]
    }

    /// The waiting one of highest rank, then lowest number.
    fn next(&self) -> Option<usize> {
        (0..self.waiting.len()).max_by_key(|&k| (self.rank(self.waiting[k].1), std::cmp::Reverse(self.waiting[k].0)))
    }

    fn begin(&mut self, k: usize) -> Arrival {
        let a = self.waiting.remove(k);
        self.running = Some((a, 0));
        self.scratch.iter_mut().for_each(|x| *x = None);
        self.places.iter_mut().for_each(|x| *x = None);
        self.stack.clear();
        self.mark = false;
        a
    }

    /// Offs done, and whether interrupts are masked, after c instructions.
    fn masks(&self, e: usize, c: usize) -> (usize, bool) {
        let done = &self.code[e][..c];
        let offs = done.iter().filter(|i| **i == Instr::Off).count();
        let ons = done.iter().filter(|i| **i == Instr::On).count();
        (offs, ons < offs)
    }

    pub fn settling(&self) -> bool {
        self.running.is_some_and(|((_, e, _), c)| self.masks(e, c) == (2, true))
    }

    fn execute(&mut self, i: Instr) {
        match i {
            Instr::Off | Instr::On => {}
            Instr::Copy(k) => self.scratch[k] = Some(self.board[k]),
            Instr::Restore(k) => self.board[k] = self.scratch[k].unwrap(),
            Instr::Push(w) => self.stack.push(w),
            Instr::Load(k) => self.stack.push(self.board[k]),
            Instr::Fetch(k) => self.stack.push(self.scratch[k].unwrap()),
            Instr::Apply(f) => {
                let at = self.stack.len() - arity(f);
                let args = self.stack.split_off(at);
                self.mark |= over(f, &args);
                self.stack.push(apply(f, &args));
            }
            Instr::Save(k) => self.scratch[k] = self.stack.pop(),
            Instr::Defer(k) => self.places[k] = self.stack.pop(),
            Instr::Move(k) => self.scratch[k] = self.places[k],
        }
    }

    fn step(&mut self) -> Answer {
        if let Some((a, c)) = self.running {
            let e = a.1;
            if let Some(k) = self.next() {
                if !self.masks(e, c).1 && self.rank(self.waiting[k].1) > self.rank(e) {
                    let b = self.begin(k);
                    self.waiting.push(a);
                    return Answer::BrokeIn(b);
                }
            }
            self.execute(self.code[e][c]);
            if c + 1 == self.code[e].len() {
                self.running = None;
                return Answer::Committed(a, self.mark);
            }
            self.running = Some((a, c + 1));
            return Answer::Ran;
        }
        match self.next() {
            Some(k) => Answer::Started(self.begin(k)),
            None => Answer::Idle,
        }
    }

    pub fn in_hand(&self) -> usize {
        self.waiting.len() + self.running.is_some() as usize
    }

    /// Document 02, M-100: with nothing running, the sum over the hand of each event's count plus one; else 01's bound.
    pub fn forecast(&self) -> usize {
        match self.running {
            None => self.waiting.iter().map(|(_, e, _)| self.code[*e].len() + 1).sum(),
            Some(_) => (self.in_hand() + 1) * (self.code.iter().map(Vec::len).max().unwrap_or(0) + 1),
        }
    }

    /// Document 02, M-101: what the board shows once this arrival and everything in hand are run to idle, on a copy;
    /// turned down as the arrival, then by 18; M-107: then by 25.
    pub fn preview(&self, e: u32, i: u32, who: u32) -> Answer {
        let mut copy = self.clone();
        match copy.call(Call::Arrive(e, who)) {
            Answer::Taken => {
                while copy.step() != Answer::Idle {}
                copy.call(Call::Board(i, who))
            }
            refused => refused,
        }
    }

    /// Up to so many steps with room for so many commits: how many were made, the commits, and why it ended: 0 all
    /// made, 1 nothing is in hand, 3 no room for a further commit. A step that finds the round idle is none of them.
    pub fn frame(&mut self, steps: u32, room: usize) -> (u32, Vec<Answer>, u64) {
        let mut commits = vec![];
        let mut made = 0;
        while made < steps && commits.len() < room && self.in_hand() > 0 {
            if let a @ Answer::Committed(..) = self.step() {
                commits.push(a);
            }
            made += 1;
        }
        let why = match () {
            _ if steps == 0 => 0,
            _ if self.in_hand() == 0 => 1,
            _ if made == steps => 0,
            _ => 3,
        };
        (made, commits, why)
    }

    /// Document 02, M-112: the round goes on under a new sheet. 0, or 19 during copy-back, then 28.
    pub fn change(&mut self, sheet: &Sheet) -> u32 {
        if self.settling() {
            return 19;
        }
        let back = self.running.map(|(a, _)| a);
        if self.waiting.iter().chain(&back).any(|a| a.1 >= sheet.ranks.len()) {
            return 28;
        }
        let mut new = Model::new(sheet.clone());
        new.board = sheet.carried(&self.sheet, &self.board);
        new.taken = self.taken;
        new.waiting = self.waiting.iter().copied().chain(back).collect();
        *self = new;
        0
    }

    pub fn call(&mut self, call: Call) -> Answer {
        match call {
            Call::Arrive(_, who) | Call::Board(_, who) if who > 7 => Answer::Refused(24),
            Call::Arrive(e, _) if e as usize >= self.sheet.ranks.len() => Answer::Refused(15),
            Call::Arrive(e, who) if !may(self.sheet.senders[e as usize], who) => Answer::Refused(25),
            Call::Arrive(..) if self.in_hand() == 64 => Answer::Refused(16),
            Call::Arrive(..) if self.taken == 1_000_000 => Answer::Refused(17),
            Call::Arrive(e, who) => {
                self.waiting.push((self.taken, e as usize, who));
                self.taken += 1;
                Answer::Taken
            }
            Call::Board(i, _) if i as usize >= self.board.len() => Answer::Refused(18),
            Call::Board(i, who) if !may(self.sheet.viewers[i as usize], who) => Answer::Refused(25),
            Call::Board(..) if self.settling() => Answer::Refused(19),
            Call::Board(i, _) => Answer::Value(self.board[i as usize]),
            Call::Step => self.step(),
        }
    }
}
