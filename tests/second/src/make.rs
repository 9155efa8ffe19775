//! Sheets and lists of calls, made at random from a seed.
use crate::engine::{Behaviour, Call, Expr, Handler, Sheet};
use crate::signature::{arity, LAST};

/// xorshift64*: the same numbers on every machine.
pub struct Rng(u64);

impl Rng {
    pub fn new(seed: u64) -> Rng {
        Rng(seed.wrapping_mul(0x9E3779B97F4A7C15) | 1)
    }

    pub fn next(&mut self) -> u64 {
        self.0 ^= self.0 >> 12;
        self.0 ^= self.0 << 25;
        self.0 ^= self.0 >> 27;
        self.0.wrapping_mul(0x2545F4914F6CDD1D)
    }

    pub fn below(&mut self, n: usize) -> usize {
        (self.next() >> 16) as usize % n
    }

    pub fn one_in(&mut self, n: usize) -> bool {
        self.below(n) == 0
    }
}

/// A word that is at an end of the range, near 0, or a root of it.
pub fn constant(r: &mut Rng) -> i32 {
    match r.below(6) {
        0 => i32::MIN,
        1 => i32::MAX,
        2 => -1,
        3 => 46341,
        _ => r.below(20) as i32 - 8,
    }
}

/// What may stand in an expression: its nesting, the names, and one parameter in so many leaves, 0 for none.
struct Within<'a> {
    depth: usize,
    names: &'a [usize],
    params: usize,
}

fn expr(r: &mut Rng, w: &Within) -> Expr {
    if w.depth == 1 || r.one_in(3) {
        if w.params > 0 && r.one_in(w.params) {
            let known = if r.one_in(20) { 10 } else { 8 };
            return Expr::Param(r.below(known));
        }
        if w.names.is_empty() || r.one_in(3) {
            Expr::Con(constant(r))
        } else {
            Expr::Name(w.names[r.below(w.names.len())])
        }
    } else {
        let f = 1 + r.below(LAST as usize) as u8;
        let inner = Within { depth: w.depth - 1, ..*w };
        Expr::App(f, (0..arity(f)).map(|_| expr(r, &inner)).collect())
    }
}

/// The bytes lent for parameters: 32 mostly, at times fewer or more.
pub fn params(r: &mut Rng) -> Vec<u8> {
    let mut out: Vec<u8> = (0..16).flat_map(|_| constant(r).to_be_bytes()).collect();
    out.truncate(match r.below(8) {
        0 => 0,
        1 => r.below(32),
        2 => 31,
        3 => 33 + r.below(31),
        _ => 32,
    });
    out
}

/// So many bytes on who may send or see, some of them missing; all are where none is said.
fn rights(r: &mut Rng, n: usize, said: bool) -> Vec<Option<u8>> {
    (0..n).map(|_| (said && !r.one_in(3)).then(|| r.next() as u8)).collect()
}

/// A sheet that is mostly accepted: names mostly lead to behaviours further down in a hidden order.
pub fn sheet(r: &mut Rng) -> Sheet {
    let events = if r.one_in(12) { 32 } else { r.below(5) };
    let n = if r.one_in(20) { 64 } else { r.below(8) };
    let depth = if r.one_in(10) { 6 } else { 1 + r.below(3) };
    let wild = r.one_in(6);
    let params = if r.one_in(3) { 1 + r.below(5) } else { 0 };
    let place: Vec<usize> = (0..n).map(|_| r.below(1000)).collect();
    let behaviours = (0..n)
        .map(|i| {
            let mut names: Vec<usize> = (0..n).filter(|&j| wild || place[j] < place[i] || j > 56).collect();
            if r.one_in(30) {
                names.push(n);
            }
            if r.one_in(3) {
                return Behaviour::Passive(expr(r, &Within { depth, names: &names, params }));
            }
            let mut hs = Vec::new();
            for e in 0..events {
                if r.one_in(if events > 8 { 12 } else { 2 }) {
                    let later = r.one_in(2);
                    let mut seen = names.clone();
                    seen.push(i);
                    if later {
                        seen = (0..n).collect();
                    }
                    hs.push(Handler { event: e, later, expr: expr(r, &Within { depth, names: &seen, params }) });
                }
            }
            Behaviour::Active(constant(r), hs)
        })
        .collect();
    let ranks = (0..events).map(|_| r.below(4) as u8).collect();
    let said = r.one_in(2);
    Sheet { ranks, behaviours, senders: rights(r, events, said), viewers: rights(r, n, said) }
}

/// Handlers, some for an event: immediate ones name `seen`, later ones any of n behaviours.
fn handlers(r: &mut Rng, events: usize, seen: &[usize], n: usize, depth: usize) -> Vec<Handler> {
    let all: Vec<usize> = (0..n).collect();
    let mut hs = Vec::new();
    for event in 0..events {
        if r.one_in(2) {
            let later = r.one_in(2);
            let names = if later { &all[..] } else { seen };
            hs.push(Handler { event, later, expr: expr(r, &Within { depth, names, params: 0 }) });
        }
    }
    hs
}

/// The bytes of a sheet with rows (02, M-110) among its behaviours, mostly accepted: immediate handlers and passives
/// name what is further down in a hidden order of the fields, first cells above all, and a row its own first cell.
pub fn rowed(r: &mut Rng) -> Vec<u8> {
    let events = r.below(4);
    let fields = 1 + r.below(6);
    let few = 2 + r.below(3);
    let counts: Vec<usize> = (0..fields).map(|_| [1, 1, 1, 2, few, few, 2 + r.below(15), 16][r.below(8)]).collect();
    let first: Vec<usize> = (0..fields).map(|k| counts[..k].iter().sum()).collect();
    let n = counts.iter().sum();
    let place: Vec<usize> = (0..fields).map(|_| r.below(1000)).collect();
    let wild = r.one_in(6);
    let mut out: Vec<u8> = (0..events).flat_map(|_| field(1, vec![r.below(4) as u8])).collect();
    for k in 0..fields {
        let mut names: Vec<usize> = first.clone();
        names.extend(0..n);
        names
            .retain(|&j| wild || (0..fields).any(|f| place[f] < place[k] && first[f] <= j && j < first[f] + counts[f]));
        if r.one_in(30) {
            names.push(n);
        }
        let depth = 1 + r.below(3);
        if counts[k] == 1 && r.one_in(2) {
            out.extend(behaviour(2, &[], &encode_expr(&expr(r, &Within { depth, names: &names, params: 0 })), r));
            continue;
        }
        names.push(first[k]);
        let v = encode_active(constant(r), &handlers(r, events, &names, n, depth));
        let count = if r.one_in(60) { r.below(20) } else { counts[k] } as u8;
        out.extend(if counts[k] == 1 { behaviour(3, &[], &v, r) } else { behaviour(6, &[count], &v, r) });
    }
    out
}

/// A behaviour's field, at times with who may see it.
fn behaviour(tag: u8, front: &[u8], own: &[u8], r: &mut Rng) -> Vec<u8> {
    let end = if r.one_in(4) { field(8, vec![r.next() as u8]) } else { vec![] };
    field(tag, [front, own, &end].concat())
}

/// Another sheet for a round of this one: mended in places, or any; its parameters filled in already.
pub fn near(r: &mut Rng, old: &Sheet) -> Sheet {
    let other = sheet(r);
    if r.one_in(4) {
        return other;
    }
    let mut new = old.clone();
    for i in 0..new.behaviours.len() {
        if r.one_in(3) {
            if let Some(b) = other.behaviours.get(i) {
                new.behaviours[i] = b.clone();
            }
        }
    }
    match r.below(6) {
        0 => {
            new.ranks.pop();
            new.senders.pop();
        }
        1 if new.ranks.len() < 32 => {
            new.ranks.push(r.below(4) as u8);
            new.senders.push(None);
        }
        2 => {
            new.behaviours.pop();
            new.viewers.pop();
        }
        3 if new.behaviours.len() < 64 => {
            new.behaviours.push(Behaviour::Active(constant(r), vec![]));
            new.viewers.push(None);
        }
        4 => new.ranks.iter_mut().for_each(|rank| *rank = r.below(4) as u8),
        _ => {}
    }
    new
}

fn field(tag: u8, v: Vec<u8>) -> Vec<u8> {
    let mut out = vec![tag, (v.len() / 256) as u8, v.len() as u8];
    out.extend(v);
    out
}

fn encode_expr(e: &Expr) -> Vec<u8> {
    match e {
        Expr::Con(w) => field(0x10, w.to_be_bytes().to_vec()),
        Expr::Name(i) => field(0x11, vec![*i as u8]),
        Expr::Param(n) => field(0x13, vec![*n as u8]),
        Expr::App(f, a) => {
            let mut v = vec![*f];
            a.iter().for_each(|x| v.extend(encode_expr(x)));
            field(0x12, v)
        }
    }
}

/// An active's start and handlers.
fn encode_active(start: i32, handlers: &[Handler]) -> Vec<u8> {
    let mut v = field(4, start.to_be_bytes().to_vec());
    for h in handlers {
        let mut x = vec![h.event as u8, h.later as u8];
        x.extend(encode_expr(&h.expr));
        v.extend(field(5, x));
    }
    v
}

pub fn encode(s: &Sheet) -> Vec<u8> {
    let mut out = Vec::new();
    for (rank, sender) in s.ranks.iter().zip(&s.senders) {
        out.extend(field(1, [*rank].into_iter().chain(*sender).collect()));
    }
    for (b, viewer) in s.behaviours.iter().zip(&s.viewers) {
        let (tag, mut v) = match b {
            Behaviour::Passive(e) => (2, encode_expr(e)),
            Behaviour::Active(w, hs) => (3, encode_active(*w, hs)),
        };
        viewer.iter().for_each(|m| v.extend(field(8, vec![*m])));
        out.extend(field(tag, v));
    }
    out
}

/// A sheet's bytes, some of them damaged.
pub fn damaged(r: &mut Rng, mut s: Vec<u8>) -> Vec<u8> {
    for _ in 0..1 + r.below(3) {
        if s.is_empty() {
            s.push(r.next() as u8);
        }
        let at = r.below(s.len());
        match r.below(5) {
            0 => s[at] = r.next() as u8,
            1 => s[at] = s[at].wrapping_add(1),
            2 => {
                s.remove(at);
            }
            3 => s.insert(at, r.below(20) as u8),
            _ => s.truncate(at),
        }
    }
    s
}

/// One of the eight, mostly, or 8 or 9; now and then a large number.
pub fn player(r: &mut Rng) -> u32 {
    if r.one_in(50) {
        r.next() as u32
    } else {
        r.below(10) as u32
    }
}

pub fn calls(r: &mut Rng, sheet: &Sheet, n: usize) -> Vec<Call> {
    let busy = 2 + r.below(20);
    (0..n)
        .map(|_| match r.below(busy + 3) {
            0 => Call::Arrive(r.below(sheet.ranks.len() + 1) as u32, player(r)),
            1 if !sheet.ranks.is_empty() => Call::Arrive(r.below(sheet.ranks.len()) as u32, player(r)),
            2 => Call::Board(r.below(sheet.behaviours.len() + 2) as u32, player(r)),
            _ => Call::Step,
        })
        .collect()
}
