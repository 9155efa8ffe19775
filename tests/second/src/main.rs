//! Holds the proved engine against a plain one.
//!
//! second compare FIRST COUNT   sheets, tables, answers, rounds, damaged bytes, starts, replays, changes of sheets,
//!                              formulas and joins on COUNT seeds from FIRST on
//! second limits                every refusal of compile, and both sides of each limit
//! second bench [RUNS]          times of every call beside the plain engine and the one in C, for tests/bench/run
//! second sheets FOLDER         sheets that are measured, for tests/bench/old.c
//! second waits                 the paper's experiment
//! second desk PROGRAM SEEDS    the desk program on the scope's rounds and traps, torn input and scripts made at random
//! second page PAGE PROGRAM INPUT   the setter's page against the desk program and its example
//! second record FILE CALLS     calls with their answers and bytes, for other processors to replay
//! second rounds FILE FIRST COUNT   recorded rounds of COUNT seeds from FIRST on, as the plain engine answers them
//! second league FILE ROUNDS CALLS   so many rounds of so many calls on one sheet, to measure the audit
//! second text FIRST COUNT      texts at each limit; sheets of COUNT seeds from FIRST on as text and back, damaged
//!                              texts, formulas
//! second phones FOLDER MATCHES   matches as two phones play them, by deliveries on two threads; for other hosts
//! second definitions FILE HEAD FIRST COUNT [spoilt]   lemmas on the definitions, of COUNT seeds, for
//!                              tests/definitions/run
//! second audit PROGRAM FOLDER SEEDS   the audit program on such rounds, with differences and damage planted
mod agree;
mod bench;
mod byhand;
mod cases;
mod compare;
mod definitions;
mod deliver;
mod desk;
mod edges;
mod engine;
mod formula;
mod frames;
mod limits;
mod make;
mod page;
mod phones;
mod pool;
mod proved;
mod record;
mod rounds;
mod signature;
mod text;
mod types;
mod waits;
mod words;

fn main() {
    let words: Vec<String> = std::env::args().collect();
    let number = |k: usize, or: u64| words.get(k).and_then(|w| w.parse().ok()).unwrap_or(or);
    match words.get(1).map(String::as_str) {
        Some("compare") => compare(number(2, 1), number(3, 2000)),
        Some("limits") => limits::run(),
        Some("bench") => bench::run(number(2, 31) as usize),
        Some("sheets") => bench::sheets(&words[2]),
        Some("waits") => waits::run(),
        Some("desk") => desk::run(&words[2], number(3, 200)),
        Some("page") => page::run(&words[2], &words[3], &words[4]),
        Some("phones") => phones::run(&words[2], number(3, 60) as usize),
        Some("text") => text::run(number(2, 1), number(3, 2000)),
        Some("rounds") => rounds::write(&words[2], number(3, 1), number(4, 1000)),
        Some("league") => rounds::league(&words[2], number(3, 10_000), number(4, 1000)),
        Some("audit") => rounds::run(&words[2], &words[3], number(4, 400)),
        Some("definitions") => {
            definitions::run(&words[2], &words[3], number(4, 1), number(5, 20), words.iter().any(|w| w == "spoilt"))
        }
        Some("record") => record::run(&words[2], number(3, 120_000)),
        _ => {
            println!(
                "second compare FIRST COUNT | limits | bench [RUNS] | sheets FOLDER | waits | desk PROGRAM SEEDS | \
                 page PAGE PROGRAM INPUT | record FILE CALLS | rounds FILE FIRST COUNT | league FILE ROUNDS CALLS | \
                 audit PROGRAM FOLDER SEEDS | text FIRST COUNT"
            );
            std::process::exit(2);
        }
    }
}

fn compare(first: u64, count: u64) {
    let mut tally = compare::Tally::default();
    println!("seeds {first} to {}", first + count - 1);
    for seed in first..first + count {
        let done = std::panic::catch_unwind(std::panic::AssertUnwindSafe(|| compare::one(seed, &mut tally)));
        if done.is_err() {
            let part = tally.part;
            let file = format!("seed-{seed}-{part}.desk");
            let _ = std::fs::write(&file, compare::script(seed, part));
            let until = if part == compare::DAMAGED { " up to the damage" } else { "" };
            println!("seed {seed} differs, part {part}; {file} replays its sheet and calls{until} at the desk program");
            std::process::exit(1);
        }
    }
    let [not_started, started] = tally.starts;
    print!(
        "accepted {}, calls {}, pairs of phones {}, foreign {}, starts {started} and {not_started} refused; sheets \
         refused",
        tally.accepted, tally.calls, tally.pairs, tally.foreign
    );
    for (n, k) in tally.refused.iter().enumerate().filter(|(_, k)| **k > 0) {
        print!(" {n}:{k}");
    }
    print!("; changes of sheets {}, refused", tally.mends[0]);
    for (n, k) in tally.mends.iter().enumerate().skip(1).filter(|(_, k)| **k > 0) {
        print!(" {n}:{k}");
    }
    print!("; formulas written {}, refused", tally.formulas[0]);
    for (n, k) in tally.formulas.iter().enumerate().skip(1).filter(|(_, k)| **k > 0) {
        print!(" {n}:{k}");
    }
    print!("; frames {}; {}; {}", tally.frames, tally.deliveries, tally.agree);
    print!("; joined {}, refused", tally.joins[0]);
    for (n, k) in tally.joins.iter().enumerate().skip(1).filter(|(_, k)| **k > 0) {
        print!(" {n}:{k}");
    }
    println!();
}
