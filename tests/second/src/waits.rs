//! The paper's experiment (003, section 6) in steps: the longest wait from arrival to commit, with ranks and without.
use crate::cases::tree;
use crate::limits::{active, con, event, handler, join};
use crate::make::Rng;
use crate::proved::{self, ROUND, TABLE};

const ADD: u8 = 4;

/// The longest wait, in steps, from arrival to commit of each event, with the given ranks.
fn waits(ranks: [u8; 3], ticks: u64) -> [u64; 3] {
    // Reset is short, H longer, L longest, as in the paper; each arrives every 130 to 150 ticks, and a step is a tick
    let body = |size: usize| tree(size, ADD, &con(1));
    let s = join(&[
        event(ranks[0]),
        event(ranks[1]),
        event(ranks[2]),
        active(0, &[handler(0, 0, &body(3))]),
        active(0, &[handler(1, 0, &body(12))]),
        active(0, &[handler(2, 0, &body(30))]),
    ]);
    let mut table = vec![0u8; TABLE];
    assert_eq!(proved::compile(&s, &[], &mut table), 0);
    let mut round = vec![0u8; ROUND];
    proved::start(&table, &mut round);
    let r = &mut Rng::new(6);
    let mut next = [0u64, 40, 80];
    let mut born = Vec::new();
    let mut longest = [0u64; 3];
    for now in 0..ticks {
        for (e, next) in next.iter_mut().enumerate() {
            if *next == now && proved::arrive(&table, &mut round, e as u32, 0) == 0 {
                born.push(now);
                *next = now + 130 + r.below(21) as u64;
            }
        }
        let a = proved::step(&table, &mut round);
        if a % 256 == 3 {
            let e = (a / 256 % 256) as usize;
            longest[e] = longest[e].max(now + 1 - born[(a / 65536 % (1 << 40)) as usize]);
        }
    }
    longest
}

/// The table of docs/RESULTS.md.
pub fn run() {
    let with = waits([15, 1, 0], 50_000);
    let without = waits([0, 0, 0], 50_000);
    println!("| event | rank | longest wait, steps | without ranks | ratio | the paper's |\n|---|---|---|---|---|---|");
    for (e, (what, rank, paper)) in [("Reset", 15, "1.47"), ("H", 1, "1.08"), ("L", 0, "0.56")].iter().enumerate() {
        println!(
            "| {what} | {rank} | {} | {} | {:.2} | {paper} |",
            with[e],
            without[e],
            without[e] as f64 / with[e] as f64
        );
    }
}
