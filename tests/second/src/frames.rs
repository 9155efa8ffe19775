//! The frame call and what a table tells of itself: against the model engine on
//! rounds of a seed's sheet, and against the plain reading of the words on damaged bytes.
use crate::compare::{self, packed, Guarded};
use crate::engine::{Model, Sheet};
use crate::make::{self, Rng};
use crate::proved::{self, ROUND, TABLE};
use crate::words;

/// How many steps, and how many bytes are lent for commits.
fn asked(r: &mut Rng) -> (u32, usize) {
    let steps = [0, 1, 2, 7, r.below(40), r.below(400), 5000][r.below(7)] as u32;
    let bytes = [0, 7, 8, 9, 16, r.below(100), 800, 8 * steps as usize][r.below(8)];
    (steps, bytes)
}

/// A fresh round with calls and frames in turn, on both engines.
fn rounds(r: &mut Rng, sheet: &Sheet, table: &Guarded) -> usize {
    let mut round = Guarded::new(ROUND + 8, 0x3C);
    assert_eq!(proved::start(table.part(), round.part_mut()), 0);
    let mut m = Model::new(sheet.clone());
    let frames = 12;
    for _ in 0..frames {
        for c in make::calls(r, sheet, 6) {
            assert_eq!(
                compare::call(table.part(), round.part_mut(), c),
                packed(m.call(c)),
                "answer to {c:?} between frames"
            );
        }
        let (steps, bytes) = asked(r);
        let mut commits = Guarded::new(bytes, 0xC3);
        let (made, want, why) = m.frame(steps, bytes / 8);
        let got = proved::frame(table.part(), round.part_mut(), steps, commits.part_mut());
        assert_eq!(
            got,
            why << 56 | (want.len() as u64) << 32 | made as u64,
            "a frame of {steps} steps and {bytes} bytes"
        );
        let written: Vec<u8> = want.iter().flat_map(|a| packed(*a).to_be_bytes()).collect();
        assert!(commits.part()[..written.len()] == written, "the commits of a frame");
        assert!(commits.part()[written.len()..].iter().all(|b| *b == 0xC3), "bytes behind the commits of a frame");
        commits.check();
        compare::same_round(round.part(), &m);
    }
    round.check();
    assert!(round.part()[ROUND..].iter().all(|b| *b == 0x3C), "bytes beyond the round changed");
    frames
}

/// Frames on damaged tables and rounds of all lengths.
fn damaged(r: &mut Rng, sheet: &Sheet, table: &Guarded) -> usize {
    let frames = 6;
    for _ in 0..frames {
        let mut t = table.part()[..TABLE].to_vec();
        let mut l = vec![0x77; ROUND + 8];
        assert_eq!(proved::start(&t, &mut l), 0);
        for c in make::calls(r, sheet, 20) {
            compare::call(&t, &mut l, c);
        }
        for _ in 0..r.below(4) {
            let (at, v) = (r.below(600), if r.one_in(2) { r.next() as u8 } else { r.below(70) as u8 });
            match r.below(4) {
                0 => t[at] = v,
                1 => t[2048 + at] = v,
                2 => l[r.below(40)] = v,
                _ => l[r.below(ROUND)] = v,
            }
        }
        let short = |r: &mut Rng, n: usize| if r.one_in(10) { r.below(n) } else { n };
        t.truncate(short(r, TABLE));
        l.truncate(short(r, ROUND + 8));
        let (steps, bytes) = asked(r);
        let (mut want, mut due) = (l.clone(), vec![0xC3; bytes]);
        let answer = words::frame(&t, &mut want, steps, &mut due);
        let (before, mut commits, mut round) = (t.clone(), Guarded::new(bytes, 0xC3), Guarded::new(l.len(), 0));
        round.part_mut().copy_from_slice(&l);
        assert_eq!(
            proved::frame(&t, round.part_mut(), steps, commits.part_mut()),
            answer,
            "damaged bytes, a frame of {steps} steps"
        );
        assert!(want == round.part(), "damaged bytes, a frame: the round");
        assert!(due == commits.part(), "damaged bytes, a frame: the commits");
        assert!(before == t, "a frame changed the table");
        commits.check();
        round.check();
    }
    frames
}

/// A seed's frames: how many were compared.
pub fn one(seed: u64, sheet: &Sheet, table: &Guarded) -> usize {
    let r = &mut Rng::new(seed ^ 0xF7A);
    rounds(r, sheet, table) + damaged(r, sheet, table)
}

/// What tables tell of themselves: as compile left them, damaged, and of all lengths.
pub fn counts(seed: u64, table: &Guarded) {
    let r = &mut Rng::new(seed ^ 0xC0);
    for k in 0..8 {
        let mut t = Guarded::new(if k == 0 { TABLE } else { compare::length(r, TABLE) }, 0);
        let n = t.part().len();
        t.part_mut().copy_from_slice(&table.part()[..n]);
        for _ in 0..if k == 0 { 0 } else { r.below(3) } {
            compare::damage(r, t.part_mut());
        }
        let event = if r.one_in(8) { r.next() as u32 } else { r.below(40) as u32 };
        let before = t.part().to_vec();
        let got =
            [proved::event_count(t.part()), proved::behaviour_count(t.part()), proved::event_rank(t.part(), event)];
        assert_eq!(got, words::counts(&before, event), "what a table tells");
        assert!(before == t.part(), "asking changed the table");
        t.check();
    }
}
