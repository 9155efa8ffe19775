//! The desk program held against a plain one: the rounds and traps of the scope, torn input at every cut, scripts made
//! at random.
use std::io::Write;
use std::process::{Command, Stdio};

use crate::engine::{self, Answer, Call, Model};
use crate::limits::{active, app, con, event, field, handler, join, name, param, passive};
use crate::make::{self, Rng};

/// S of the scope, 74 bytes.
pub fn sheet_s() -> Vec<u8> {
    join(&[
        event(1),
        event(2),
        active(1, &[handler(0, 0, &app(4, &[name(0), name(1)]))]),
        active(1, &[handler(0, 1, &app(5, &[name(0), name(1)])), handler(1, 0, &con(1))]),
    ])
}

/// What the desk program must print.
pub fn expected(input: &[u8]) -> String {
    let mut out = String::new();
    let mut model: Option<Model> = None;
    let mut s = input;
    while !s.is_empty() {
        if s.len() < 3 {
            return out + "R 4\n";
        }
        if !(0x20..=0x23).contains(&s[0]) {
            return out + "R 5\n";
        }
        let n = s[1] as usize * 256 + s[2] as usize;
        if n > s.len() - 3 {
            return out + "R 4\n";
        }
        let (tag, v) = (s[0], &s[3..3 + n]);
        s = &s[3 + n..];
        if tag == 0x20 {
            match engine::compile(v, &[]) {
                Ok(sheet) => model = Some(Model::new(sheet)),
                Err(n) => out += &format!("R {n}\n"),
            }
            continue;
        }
        let due = match tag {
            0x21 => 1,
            0x22 => 2,
            _ => 0,
        };
        if v.len() != due {
            return out + "R 6\n";
        }
        let Some(m) = model.as_mut() else {
            out += "R 14\n";
            continue;
        };
        match tag {
            0x21 => {
                if let Answer::Refused(n) = m.call(Call::Arrive(v[0] as u32, 0)) {
                    out += &format!("R {n}\n");
                }
            }
            0x22 => {
                for _ in 0..v[0] as usize * 256 + v[1] as usize {
                    if let Answer::Committed((n, e, _), _) = m.call(Call::Step) {
                        out += &format!("C {n} {e}\n");
                    }
                }
            }
            _ if m.settling() => out += "R 19\n",
            _ => {
                out += "B";
                m.board.iter().for_each(|v| out += &format!(" {v}"));
                out += "\n";
            }
        }
    }
    out
}

pub fn play(program: &str, input: &[u8]) -> String {
    let mut child =
        Command::new(program).stdin(Stdio::piped()).stdout(Stdio::piped()).spawn().expect("the desk program");
    let mut pipe = child.stdin.take().unwrap();
    let bytes = input.to_vec();
    let feed = std::thread::spawn(move || {
        let _ = pipe.write_all(&bytes);
    });
    let out = child.wait_with_output().unwrap();
    feed.join().unwrap();
    String::from_utf8(out.stdout).unwrap()
}

pub fn sheet(s: &[u8]) -> Vec<u8> {
    field(0x20, s)
}

pub fn arrive(e: u8) -> Vec<u8> {
    field(0x21, &[e])
}

pub fn steps(n: u16) -> Vec<u8> {
    field(0x22, &n.to_be_bytes())
}

pub fn show() -> Vec<u8> {
    field(0x23, &[])
}

/// A script, what it is about, and what must be printed.
type Round = (&'static str, Vec<u8>, &'static str);

/// One event after the other, each run to idle, then a show.
fn all(s: &[u8], events: &[u8]) -> Vec<u8> {
    let runs: Vec<Vec<u8>> = events.iter().map(|e| join(&[arrive(*e), steps(60)])).collect();
    join(&[sheet(s), join(&runs), show()])
}

/// The rounds to check.
fn rounds() -> Vec<Round> {
    let s = sheet_s();
    let pair =
        |a: u8, b: u8| join(&[event(1), active(1, &[handler(0, a, &name(1))]), active(2, &[handler(0, b, &name(0))])]);
    let one = |e: Vec<u8>| join(&[event(0), active(0, &[handler(0, 0, &e)])]);
    let follows =
        |phase: u8| join(&[event(1), active(0, &[handler(0, phase, &name(1))]), passive(&app(4, &[name(0), con(1)]))]);
    let full = |after: &[Vec<u8>]| join(&[sheet(&s), join(&vec![arrive(0); 65]), join(after)]);
    vec![
        ("the example", join(&[sheet(&s), arrive(0), steps(18), show()]), "C 0 0\nB 2 1\n"),
        ("three times", all(&s, &[0, 0, 0]), "C 0 0\nC 1 0\nC 2 0\nB 5 3\n"),
        ("then 1, 0", all(&s, &[0, 0, 0, 1, 0]), "C 0 0\nC 1 0\nC 2 0\nC 3 1\nC 4 0\nB 6 5\n"),
        ("0, 1 instead", all(&s, &[0, 0, 0, 0, 1]), "C 0 0\nC 1 0\nC 2 0\nC 3 0\nC 4 1\nB 8 1\n"),
        (
            "17 and 8 instructions",
            join(&[sheet(&s), arrive(0), steps(17), show(), steps(1), arrive(1), steps(8), show(), steps(1)]),
            "R 19\nC 0 0\nR 19\nC 1 1\n",
        ),
        ("immediate, later", all(&pair(0, 1), &[0]), "C 0 0\nB 2 2\n"),
        ("both immediate", sheet(&pair(0, 0)), "R 12\n"),
        ("passive, later", all(&follows(1), &[0]), "C 0 0\nB 1 2\n"),
        ("passive, immediate", sheet(&follows(0)), "R 12\n"),
        ("top of the range", all(&one(app(4, &[con(i32::MAX), con(1)])), &[0]), "C 0 0\nB -2147483648\n"),
        ("-7 / 2", all(&one(app(7, &[con(-7), con(2)])), &[0]), "C 0 0\nB -4\n"),
        ("5 / 0", all(&one(app(7, &[con(5), con(0)])), &[0]), "C 0 0\nB 0\n"),
        ("64 pass", full(&[]), "R 16\n"),
        ("one more after a commit", full(&[steps(18), arrive(0), arrive(0)]), "R 16\nC 0 0\nR 16\n"),
    ]
}

/// The traps. The events of both sheets but H of the first have ten instructions: off, copy, on, two values, the
/// function, the store, off, copy back, on; with the start, step n makes instruction n - 1. So a break-in is possible
/// after steps 4 to 8, and steps 9 and 10 end in copy-back.
fn traps() -> Vec<Round> {
    let equals = join(&[
        event(1),
        event(1),
        event(9),
        active(1, &[handler(0, 0, &app(4, &[name(0), con(1)])), handler(1, 0, &app(6, &[name(0), con(2)]))]),
        active(0, &[handler(2, 0, &con(7))]),
    ]);
    let same = join(&[
        event(1),
        event(2),
        active(1, &[handler(0, 0, &app(4, &[name(0), con(1)])), handler(1, 0, &app(6, &[name(0), con(10)]))]),
    ]);
    let again = |n: u16| join(&[sheet(&same), arrive(0), steps(n), arrive(1), steps(11), show(), steps(11), show()]);
    let swap = join(&[event(1), active(1, &[handler(0, 1, &name(1))]), active(2, &[handler(0, 1, &name(0))])]);
    let late = join(&[arrive(2), show(), steps(1), show(), steps(1), show(), steps(60), show()]);
    vec![
        (
            "equal ranks A, B",
            join(&[sheet(&equals), arrive(0), arrive(1), steps(3), arrive(2), steps(100), show()]),
            "C 2 2\nC 0 0\nC 1 1\nB 4 7\n",
        ),
        ("no old scratch, past the copies", again(4), "C 1 1\nB 10\nC 0 0\nB 11\n"),
        ("no old stack", again(6), "C 1 1\nB 10\nC 0 0\nB 11\n"),
        ("no old scratch, past the store", again(8), "C 1 1\nB 10\nC 0 0\nB 11\n"),
        ("both later", all(&swap, &[0]), "C 0 0\nB 2 1\n"),
        (
            "a break-in just before copy-back",
            join(&[sheet(&equals), arrive(0), steps(8), arrive(2), steps(60), show()]),
            "C 1 2\nC 0 0\nB 2 7\n",
        ),
        (
            "no break-in in copy-back",
            join(&[sheet(&equals), arrive(0), steps(9), late]),
            "R 19\nR 19\nC 0 0\nB 2 0\nC 1 2\nB 2 7\n",
        ),
    ]
}

/// What the desk program does with its fields.
fn manners() -> Vec<Round> {
    let s = sheet_s();
    vec![
        (
            "no behaviours",
            join(&[sheet(&event(1)), show(), arrive(0), steps(4), show(), steps(1), show()]),
            "B\nR 19\nC 0 0\nB\n",
        ),
        ("before a sheet", join(&[arrive(0), steps(1), show(), sheet(&s), show()]), "R 14\nR 14\nR 14\nB 1 1\n"),
        (
            "a refused sheet leaves the round",
            join(&[sheet(&s), arrive(0), steps(18), sheet(&[9]), show()]),
            "C 0 0\nR 4\nB 2 1\n",
        ),
        ("a rest day", join(&[sheet(&[]), show(), arrive(0), steps(100), show()]), "B\nR 15\nB\n"),
        (
            "a rest day after a round",
            join(&[sheet(&s), arrive(0), steps(18), sheet(&[]), arrive(0), show()]),
            "C 0 0\nR 15\nB\n",
        ),
        ("a parameter", join(&[sheet(&passive(&param(0))), show(), sheet(&s), show()]), "R 20\nR 14\nB 1 1\n"),
        ("a long sheet", join(&[sheet(&vec![0; 65535]), show()]), "R 3\nR 14\n"),
        ("another tag", join(&[sheet(&s), field(0x24, &[]), show()]), "R 5\n"),
        ("a wrong length", join(&[sheet(&s), field(0x23, &[1]), show()]), "R 6\n"),
    ]
}

/// The round of the final as two lists: a tick breaks into a move on one phone only.
fn two_phones(program: &str) {
    let s = join(&[
        event(1),
        event(5),
        active(1, &[handler(0, 0, &app(6, &[app(4, &[name(0), con(1)]), con(3)]))]),
        active(0, &[handler(1, 0, &app(4, &[name(1), con(1)]))]),
    ]);
    let end = [steps(200), show()].concat();
    let broken = join(&[sheet(&s), arrive(0), steps(5), arrive(1), arrive(0), end.clone()]);
    let whole = join(&[sheet(&s), arrive(0), steps(60), arrive(1), arrive(0), end]);
    let last = |out: String| out.lines().last().unwrap_or("").to_string();
    let (a, b) = (play(program, &broken), play(program, &whole));
    assert!(a.starts_with("C 1 1\n") && b.starts_with("C 0 0\n"), "a tick breaks in on one phone only");
    assert_eq!(last(a), last(b), "two phones");
}

pub fn run(program: &str, seeds: u64) {
    for (what, input, want) in [rounds(), traps(), manners()].concat() {
        assert_eq!(play(program, &input), want, "{what}");
        assert_eq!(expected(&input), want, "{what}: second engine");
    }
    two_phones(program);
    let whole = join(&[sheet(&sheet_s()), arrive(0), steps(18), show()]);
    for cut in 0..whole.len() {
        assert_eq!(play(program, &whole[..cut]), expected(&whole[..cut]), "cut at {cut}");
    }
    for seed in 1..=seeds {
        let r = &mut Rng::new(seed);
        let mut input = Vec::new();
        for _ in 0..1 + r.below(3) {
            let sheet_ = make::sheet(r);
            input.extend(sheet(&make::encode(&sheet_)));
            for _ in 0..r.below(12) {
                match r.below(3) {
                    0 => input.extend(arrive(r.below(sheet_.ranks.len() + 1) as u8)),
                    1 => input.extend(steps(r.below(60) as u16)),
                    _ => input.extend(show()),
                }
            }
        }
        if r.one_in(3) {
            input = make::damaged(r, input);
        }
        assert_eq!(play(program, &input), expected(&input), "script of seed {seed}");
    }
    println!("desk: rounds, traps, two phones, {} cuts, {seeds} scripts", whole.len());
}
