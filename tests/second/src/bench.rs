//! Times of every exported call: the proved engine beside the plain one and, for frame, step, arrive and board, beside
//! the same call of the one written by hand in C. One process, the same inputs, all built for release, buffers warm,
//! the engines run in turn.
//!
//! What is printed are lines of words between tabs, for tests/bench/page.py:
//!   row CALL INPUT OURS PLAIN C RATIO RATIO   times in nanoseconds, then ours by the plain engine's and by C's
//!   grows CALL WHAT LABELS TIMES              least nanoseconds at x1, x2, x4, x8
//!   beside SHEET COMPILE AGREE LEAK RATIO RATIO   the two calls beside compile of the same sheet
//!   texts SHEET COMPILE ASSEMBLE DESCRIBE RATIO RATIO   assemble of its text and describe beside compile of a sheet
//! Each time and each ratio is `least/median/greatest` of the runs, - where there is none; a ratio is of two times
//! taken one after the other, and ends in `/` and the ratio of the least times.
use std::hint::black_box;

use crate::byhand;
use crate::cases::{self, Case, FULL_EVENTS};
use crate::compare::packed;
use crate::engine::{self, Answer, Call, Model};
use crate::formula;
use crate::limits::{event, join, name};
use crate::pool;
use crate::proved::{self, ROUND, TABLE};
use crate::words;

/// A run lasts about so many nanoseconds where the call is shorter.
const SPAN: f64 = 1.5e6;
/// Arrivals are numbered, at most 1,000,000 a round.
const MOST_REPS: f64 = 400_000.0;
/// Where one run of all engines takes longer than this, in nanoseconds, there are no more runs than these.
const LONG: f64 = 5e7;
const LEAST_RUNS: usize = 15;
/// Of so many runs the least time is taken where the worst of many inputs is looked for.
const LOOKS: usize = 5;
/// A round's words for what it has taken in, how many wait and what runs: all that decides what a row of steps does.
const RUNS: usize = 32;
/// And two of its queue: all that one step changes of a round whose next is in slot 0.
const HEAD: usize = 48;
/// The instructions of a step's rows: the event has 207.
const STEPS: usize = 200;
const HOST: u32 = 0;

/// Makes the same thing so many times over, and answers a sum of what was answered.
type Runner<'a> = Box<dyn FnMut(usize) -> u64 + 'a>;

/// Calls of the two archives are made as they stand here; what is written in Rust must go through `black_box`, or the
/// compiler might do it once for all repetitions.
fn repeat<'a>(mut one: impl FnMut() -> u64 + 'a) -> Runner<'a> {
    Box::new(move |reps| (0..reps).fold(0u64, |sum, _| sum.wrapping_add(one())))
}

extern "C" {
    fn clock_gettime(clock: i32, time: *mut [i64; 2]) -> i32;
}

/// Of this thread's processor time, so that other programs count as little as can be.
fn now() -> f64 {
    const THREAD_CPUTIME: i32 = 3;
    let mut time = [0i64; 2];
    assert_eq!(unsafe { clock_gettime(THREAD_CPUTIME, &mut time) }, 0);
    time[0] as f64 * 1e9 + time[1] as f64
}

fn timed(runner: &mut Runner, reps: usize) -> f64 {
    let t = now();
    black_box(runner(reps));
    (now() - t) / reps as f64
}

fn spread(all: &[f64]) -> [f64; 3] {
    let mut all = all.to_vec();
    all.sort_by(f64::total_cmp);
    [all[0], all[all.len() / 2], all[all.len() - 1]]
}

fn said(all: &[f64]) -> String {
    all.iter().map(|x| if *x < 100.0 { format!("{x:.3}") } else { format!("{x:.0}") }).collect::<Vec<_>>().join("/")
}

struct Bench {
    runs: usize,
}

impl Bench {
    /// All of them in turn, once before counting; the times of each, of one repetition.
    fn race(&self, runners: &mut [Runner]) -> Vec<Vec<f64>> {
        let reps: Vec<usize> = runners
            .iter_mut()
            .map(|r| {
                let once = timed(r, 1);
                let few = timed(r, (SPAN / 20.0 / once).clamp(1.0, 1000.0) as usize);
                (SPAN / few).clamp(1.0, MOST_REPS) as usize
            })
            .collect();
        let mut all = vec![vec![]; runners.len()];
        let mut runs = self.runs;
        while all[0].len() < runs {
            for (k, runner) in runners.iter_mut().enumerate() {
                all[k].push(timed(runner, reps[k]));
            }
            if all.iter().zip(&reps).map(|(t, n)| t[0] * *n as f64).sum::<f64>() > LONG {
                runs = runs.min(LEAST_RUNS);
            }
        }
        all
    }

    /// Ours, the plain one, the one in C; each repetition has so many calls.
    fn row(&self, call: &str, input: &str, calls: usize, runners: [Option<Runner>; 3]) {
        let here: Vec<bool> = runners.iter().map(Option::is_some).collect();
        let mut runners: Vec<Runner> = runners.into_iter().flatten().collect();
        let answers: Vec<u64> = runners.iter_mut().map(|r| r(1)).collect();
        assert!(answers.iter().all(|a| *a == answers[0]), "{call}, {input}: {answers:x?}");
        if self.runs == 0 {
            return;
        }
        let times = self.race(&mut runners);
        let of = |k: usize| here[k].then(|| &times[here[..k].iter().filter(|h| **h).count()]);
        let each = |k: usize| {
            of(k).map_or("-".into(), |t| said(&spread(&t.iter().map(|x| x / calls as f64).collect::<Vec<_>>())))
        };
        let ratio = |k: usize| of(k).map_or("-".into(), |t| ratios(&times[0], t));
        let words = [call.into(), input.into(), each(0), each(1), each(2), ratio(1), ratio(2)];
        println!("row\t{}", words.join("\t"));
        eprint!(".");
    }

    /// The input that takes the longest; how many were tried.
    fn worst<'a, T>(&self, inputs: &'a [(String, T)], call: impl Fn(&T) -> u64) -> (String, &'a T) {
        let looks = if self.runs == 0 { 0 } else { LOOKS };
        let time = |input: &T| {
            let mut runner = repeat(|| call(input));
            let reps = (SPAN / 10.0 / timed(&mut runner, 1)).clamp(1.0, 1000.0) as usize;
            (0..looks).map(|_| timed(&mut runner, reps)).fold(f64::MAX, f64::min)
        };
        let at = inputs.iter().map(|(_, input)| time(input)).enumerate().max_by(|a, b| a.1.total_cmp(&b.1)).unwrap().0;
        (format!("{}, the worst of {} tried", inputs[at].0, inputs.len()), &inputs[at].1)
    }

    fn grows(&self, call: &str, what: &str, cases: Vec<(String, Runner)>) {
        let (labels, mut runners): (Vec<String>, Vec<Runner>) = cases.into_iter().unzip();
        let least: Vec<f64> = self.race(&mut runners).iter().map(|t| spread(t)[0]).collect();
        println!("grows\t{call}\t{what}\t{}\t{}", labels.join("/"), said(&least));
        eprint!(".");
    }
}

/// Ours by another's: least, median and greatest of two times side by side, and of the least times.
fn ratios(ours: &[f64], other: &[f64]) -> String {
    let all: Vec<f64> = ours.iter().zip(other).map(|(a, b)| a / b).collect();
    let least = spread(ours)[0] / spread(other)[0];
    said(&[&spread(&all)[..], &[least]].concat())
}

// ---- rounds on the engines

type Count = fn(&[u8]) -> u64;

/// A round after some calls, as bytes and in the plain engine.
#[derive(Clone)]
struct Set {
    table: Vec<u8>,
    round: Vec<u8>,
    model: Model,
}

fn set(sheet: &[u8], calls: &[Call]) -> Set {
    set_with(sheet, &[], calls)
}

fn set_with(sheet: &[u8], params: &[u8], calls: &[Call]) -> Set {
    let (mut table, mut round) = (vec![0u8; TABLE], vec![0u8; ROUND]);
    assert_eq!(proved::compile(sheet, params, &mut table), 0);
    proved::start(&table, &mut round);
    let mut model = Model::new(engine::compile(sheet, params).unwrap());
    for c in calls {
        assert_eq!(crate::compare::call(&table, &mut round, *c), packed(model.call(*c)));
    }
    Set { table, round, model }
}

fn arrivals(n: usize, event: u32) -> Vec<Call> {
    vec![Call::Arrive(event, HOST); n]
}

impl Set {
    /// On the round's bytes, of which so many are put back before each call.
    fn bytes<'a, const BACK: usize>(&'a self, call: impl Fn(&[u8], &mut [u8]) -> u64 + 'a) -> Runner<'a> {
        let (table, first, mut round) = (&self.table[..], &self.round[..], self.round.clone());
        repeat(move || {
            round[..BACK].copy_from_slice(&first[..BACK]);
            call(table, &mut round)
        })
    }

    /// On the round's bytes as they come, from the same ones in each run: `call` is lent how many were made before.
    fn onward<'a>(&'a self, call: impl Fn(&[u8], &mut [u8], usize) -> u64 + 'a) -> Runner<'a> {
        let mut round = self.round.clone();
        Box::new(move |reps| {
            round.copy_from_slice(&self.round);
            (0..reps).fold(0u64, |sum, k| sum.wrapping_add(call(&self.table, &mut round, k)))
        })
    }

    /// The same on the plain engine.
    fn plain_onward<'a>(&'a self, call: impl Fn(&mut Model, usize) -> u64 + 'a) -> Runner<'a> {
        let mut m = self.model.clone();
        Box::new(move |reps| {
            m.clone_from(&self.model);
            (0..reps).fold(0u64, |sum, k| sum.wrapping_add(call(black_box(&mut m), k)))
        })
    }

    /// The plain engine, its round put back before each call but for the values.
    fn plain<'a>(&'a self, call: impl Fn(&mut Model) -> u64 + 'a) -> Runner<'a> {
        let mut m = self.model.clone();
        repeat(move || {
            m.waiting.clone_from(&self.model.waiting);
            m.stack.clone_from(&self.model.stack);
            (m.running, m.taken, m.mark) = (self.model.running, self.model.taken, self.model.mark);
            call(black_box(&mut m))
        })
    }

    fn three<'a, const BACK: usize>(
        &'a self,
        ours: impl Fn(&[u8], &mut [u8]) -> u64 + 'a,
        plain: impl Fn(&mut Model) -> u64 + 'a,
        byhand: impl Fn(&[u8], &mut [u8]) -> u64 + 'a,
    ) -> [Option<Runner<'a>>; 3] {
        [Some(self.bytes::<BACK>(ours)), Some(self.plain(plain)), Some(self.bytes::<BACK>(byhand))]
    }

    fn step_row<const BACK: usize>(&self, bench: &Bench, input: &str) {
        let plain = |m: &mut Model| packed(m.call(Call::Step));
        bench.row("step", input, 1, self.three::<BACK>(proved::step, plain, byhand::step));
    }

    fn arrive_row(&self, bench: &Bench, input: &str) {
        let ours = |t: &[u8], l: &mut [u8]| proved::arrive(t, l, 0, HOST) as u64;
        let hand = |t: &[u8], l: &mut [u8]| byhand::arrive(t, l, 0, HOST) as u64;
        let plain = |m: &mut Model| packed(m.call(Call::Arrive(0, HOST)));
        bench.row("arrive", input, 1, self.three::<8>(ours, plain, hand));
    }

    /// The next entry of an order, and what is taken in; of the plain engine on the bytes.
    fn deliver_rows(&self, bench: &Bench, input: &str) {
        let next = words::get(&self.round, 0);
        let ours = move |t: &[u8], l: &mut [u8]| proved::deliver(t, l, next, 0, HOST, &mut [0; 8]);
        bench.row("deliver", input, 1, [Some(self.bytes::<ROUND>(ours)), None, None]);
        let ours = |t: &[u8], l: &mut [u8]| proved::taken(t, l);
        let plain = |t: &[u8], l: &mut [u8]| words::taken(t, l);
        bench.row("taken", input, 1, [Some(self.bytes::<0>(ours)), Some(self.bytes::<0>(plain)), None]);
    }

    fn board_row(&self, bench: &Bench, input: &str) {
        let ours = |t: &[u8], l: &mut [u8]| proved::board(t, l, 0, 1);
        let hand = |t: &[u8], l: &mut [u8]| byhand::board(t, l, 0, 1);
        let plain = |m: &mut Model| packed(m.call(Call::Board(0, 1)));
        bench.row("board", input, 1, self.three::<0>(ours, plain, hand));
    }

    fn forecast_row(&self, bench: &Bench, input: &str) {
        let ours = |t: &[u8], l: &mut [u8]| proved::forecast(t, l);
        let plain = |m: &mut Model| (1 << 32) + m.forecast() as u64;
        bench.row("forecast", input, 1, [Some(self.bytes::<0>(ours)), Some(self.plain(plain)), None]);
    }

    fn preview_row(&self, bench: &Bench, input: &str) {
        let ours = |t: &[u8], l: &mut [u8]| proved::preview(t, l, 0, 0, HOST);
        let plain = |m: &mut Model| packed(m.preview(0, 0, HOST));
        bench.row("preview", input, 1, [Some(self.bytes::<0>(ours)), Some(self.plain(plain)), None]);
    }

    fn mend_row(&self, bench: &Bench, input: &str) {
        let ours = |t: &[u8], l: &mut [u8]| proved::mend(t, t, l) as u64;
        let plain = |t: &[u8], l: &mut [u8]| words::mend(black_box(t), t, l) as u64;
        bench.row("mend", input, 1, [Some(self.bytes::<0>(ours)), Some(self.bytes::<0>(plain)), None]);
    }

    fn start_row(&self, bench: &Bench, input: &str) {
        let ours = |t: &[u8], l: &mut [u8]| proved::start(t, l) as u64;
        let plain = |t: &[u8], l: &mut [u8]| words::start(black_box(t), l) as u64;
        bench.row("start", input, 1, [Some(self.bytes::<0>(ours)), Some(self.bytes::<0>(plain)), None]);
    }

    fn count_rows(&self, bench: &Bench, input: &str) {
        let calls: [(&str, Count); 3] = [
            ("event_count", proved::event_count),
            ("behaviour_count", proved::behaviour_count),
            ("event_rank", |t| proved::event_rank(t, 0)),
        ];
        for (k, (call, ours)) in calls.into_iter().enumerate() {
            let plain = move |t: &[u8], _: &mut [u8]| words::counts(black_box(t), 0)[k];
            let ours = self.bytes::<0>(move |t: &[u8], _: &mut [u8]| ours(t));
            bench.row(call, input, 1, [Some(ours), Some(self.bytes::<0>(plain)), None]);
        }
    }
}

// ---- steps and frames

type Step = fn(&[u8], &mut [u8]) -> u64;
type Frame = fn(&[u8], &mut [u8], u32, &mut [u8]) -> u64;
type Arrive = fn(&[u8], &mut [u8], u32, u32) -> u32;

/// A frame of 200 steps at most, of which none commits.
fn framed(frame: Frame) -> impl Fn(&[u8], &mut [u8]) -> u64 {
    move |t, l| frame(t, l, STEPS as u32, &mut [0u8; 8])
}

fn steps_of(one: Step) -> impl Fn(&[u8], &mut [u8]) -> u64 {
    move |t, l| (0..STEPS).fold(0, |sum, _| sum + one(t, l))
}

/// One event of 200 nodes runs, and so many wait.
fn long_event(declared: usize, waiting: usize) -> Set {
    let calls = [arrivals(waiting + 1, 0), vec![Call::Step]].concat();
    set(&cases::one_event(declared, STEPS, &name(0)), &calls)
}

/// Single steps, and as many in one frame.
fn step_rows(bench: &Bench) {
    for (declared, waiting, input) in [
        (1, 0, "none waits"),
        (1, 8, "8 wait"),
        (1, 32, "32 wait"),
        (1, 62, "62 wait"),
        (32, 0, "none waits, 32 events"),
        (32, 63, "63 wait, 32 events"),
    ] {
        let s = long_event(declared, waiting);
        let plain = |m: &mut Model| (0..STEPS).fold(0, |sum, _| sum + packed(m.call(Call::Step)));
        let one = s.three::<RUNS>(steps_of(proved::step), plain, steps_of(byhand::step));
        bench.row("step", &format!("an instruction, {input}"), STEPS, one);
        let plain = |m: &mut Model| m.frame(STEPS as u32, 1).0 as u64;
        let all = s.three::<RUNS>(framed(proved::frame), plain, framed(byhand::frame));
        bench.row("frame", &format!("an instruction, {input}"), STEPS, all);
    }
    set(&cases::one_event(1, 3, &name(0)), &[]).step_row::<0>(bench, "idle, one event");
    let none = join(&vec![event(1); FULL_EVENTS]);
    set(&none, &arrivals(64, 0)).step_row::<HEAD>(bench, "a start out of 64, 32 events");
    let commit = [arrivals(64, 0), vec![Call::Step; 4]].concat();
    set(&none, &commit).step_row::<HEAD>(bench, "a commit, 63 wait, 32 events");
    let ranked = join(&[event(1), join(&vec![event(2); FULL_EVENTS - 1])]);
    let meet = [arrivals(1, 0), vec![Call::Step], arrivals(1, 1), arrivals(62, 0)].concat();
    set(&ranked, &meet).step_row::<HEAD>(bench, "a break-in, 63 wait, 32 events");
}

/// More steps than an event has.
const WHOLE: u32 = 100_000;

/// Before they are timed so many events, one after the other, must be answered alike.
const ALL_ALIKE: usize = 200;

/// Of daily.sheet, and who sends them: solve, miss, bonus, tick.
const DAILY_EVENTS: [(u32, u32); 4] = [(0, 1), (1, 2), (2, HOST), (4, HOST)];

/// One event after the other, each taken in and run to a commit: with some waiting the oldest runs, and the new one
/// waits. Arrivals are of these events and players in turn.
fn event_runner<'a>(s: &'a Set, events: &'a [(u32, u32)], arrive: Arrive, frame: Frame) -> Runner<'a> {
    s.onward(move |t: &[u8], l: &mut [u8], k: usize| {
        let (event, player) = events[k % events.len()];
        let mut commits = [0u8; 8];
        let taken = arrive(t, l, event, player);
        frame(t, l, WHOLE, &mut commits);
        u64::from_be_bytes(commits).wrapping_add(taken as u64)
    })
}

fn plain_events<'a>(s: &'a Set, events: &'a [(u32, u32)]) -> Runner<'a> {
    s.plain_onward(move |m: &mut Model, k: usize| {
        let (event, player) = events[k % events.len()];
        let taken = packed(m.call(Call::Arrive(event, player)));
        packed(m.frame(WHOLE, 1).1[0]).wrapping_add(taken)
    })
}

/// Events by frame: of one event with so many nodes, and those of daily's players.
fn event_rows(bench: &Bench) {
    let one = |size: usize| (format!("of {size} nodes"), cases::one_event(1, size, &crate::limits::con(1)), vec![]);
    let (daily, params) = cases::daily();
    for (what, sheet, params) in [one(3), one(30), one(300), ("of daily.sheet".to_string(), daily, params)] {
        let events: &[(u32, u32)] = if params.is_empty() { &[(0, HOST)] } else { &DAILY_EVENTS };
        for (waiting, said) in [(0, "none waits"), (62, "62 wait")] {
            let hand: Vec<Call> = events.iter().cycle().take(waiting).map(|(e, p)| Call::Arrive(*e, *p)).collect();
            let s = set_with(&sheet, &params, &hand);
            let ours = event_runner(&s, events, proved::arrive, proved::frame);
            let by_hand = event_runner(&s, events, byhand::arrive, byhand::frame);
            let mut runners = [ours, plain_events(&s, events), by_hand];
            let answers = runners.each_mut().map(|r| r(ALL_ALIKE));
            assert!(answers.iter().all(|a| *a == answers[0]), "events {what}, {said}: {answers:x?}");
            bench.row("an event by frame", &format!("{what}, {said}"), 1, runners.map(Some));
        }
    }
}

/// A whole event of so many nodes, from its arrival to its commit, by single steps.
fn stepped_rows(bench: &Bench, size: usize) {
    let s = set(&cases::one_event(1, size, &crate::limits::con(1)), &[]);
    let stepped = |arrive: Arrive, step: Step| {
        s.bytes::<8>(move |t: &[u8], l: &mut [u8]| {
            arrive(t, l, 0, HOST);
            loop {
                let answer = step(t, l);
                if answer % 16 == 3 {
                    return answer;
                }
            }
        })
    };
    let plain = s.plain(|m: &mut Model| {
        m.call(Call::Arrive(0, HOST));
        loop {
            if let a @ Answer::Committed(..) = m.call(Call::Step) {
                return packed(a);
            }
        }
    });
    let (ours, by_hand) = (stepped(proved::arrive, proved::step), stepped(byhand::arrive, byhand::step));
    bench.row("an event by steps", &format!("of {size} nodes"), 1, [Some(ours), Some(plain), Some(by_hand)]);
}

fn frame_rows(bench: &Bench) {
    let all = |frame: Frame| move |t: &[u8], l: &mut [u8]| frame(t, l, 400, &mut [0u8; 8 * 64]) as u32 as u64;
    let plain = |m: &mut Model| m.frame(400, 64).0 as u64;
    let row = |s: &Set, input: &str| {
        bench.row("frame", input, s.model.forecast(), s.three::<ROUND>(all(proved::frame), plain, all(byhand::frame)));
    };
    let none = join(&vec![event(1); FULL_EVENTS]);
    row(&set(&none, &arrivals(64, 0)), "a step of 64 events of 4 instructions, 32 declared");
    let three = [arrivals(1, 0), arrivals(1, 1), arrivals(1, 2)].concat();
    row(&set(&cases::game(), &three), "a step of 3 events of a game");
}

fn round_rows(bench: &Bench) {
    let game = |n: usize| set(&cases::game(), &arrivals(n, 0));
    let wide = |n: usize| set(&cases::one_event(FULL_EVENTS, STEPS, &name(0)), &arrivals(n, 0));
    let one = |n: usize| set(&cases::one_event(1, STEPS, &name(0)), &arrivals(n, 0));
    game(3).arrive_row(bench, "a game, 3 in hand");
    one(0).arrive_row(bench, "one event, nothing in hand");
    one(62).arrive_row(bench, "one event, 62 wait");
    wide(63).arrive_row(bench, "63 wait, 32 events");
    game(3).deliver_rows(bench, "a game, 3 in hand");
    wide(64).deliver_rows(bench, "64 wait, 32 events");
    set(&cases::longest(4), &arrivals(64, 0)).deliver_rows(bench, "64 wait, an event as long as can be");
    game(3).board_row(bench, "a game, 3 wait");
    one(0).board_row(bench, "one event, nothing in hand");
    one(62).board_row(bench, "one event, 62 wait");
    long_event(1, 63).board_row(bench, "one runs and 63 wait, one event");
    long_event(FULL_EVENTS, 63).board_row(bench, "one runs and 63 wait, 32 events");
    game(3).forecast_row(bench, "a game, 3 in hand");
    wide(64).forecast_row(bench, "64 wait, 32 events");
    long_event(FULL_EVENTS, 63).forecast_row(bench, "one runs and 63 wait, 32 events");
    game(3).preview_row(bench, "a game, 3 in hand");
    game(63).preview_row(bench, "a game, 63 in hand");
    let full = [
        ("sums", cases::longest(4)),
        ("quotients", cases::longest(7)),
        ("mixed, of numbers at random", cases::shaken(32)),
    ];
    for (what, sheet) in &full {
        let s = set(sheet, &arrivals(63, 0));
        s.preview_row(bench, &format!("63 in hand, an event of {} instructions, {what}", s.model.code[0].len()));
    }
    game(3).mend_row(bench, "a game for itself, 3 in hand");
    for (what, sheet) in &full {
        set(sheet, &arrivals(64, 0)).mend_row(bench, &format!("passives of 61 nodes, {what}, 64 in hand"));
    }
    game(0).start_row(bench, "a game");
    wide(0).start_row(bench, "32 events");
    game(0).count_rows(bench, "a game");
    wide(0).count_rows(bench, "32 events");
    let mut answer = 1u64 << 56 | 3;
    bench.row("told", "a commit's answer", 1, [Some(repeat(|| proved::told(black_box(answer)))), None, None]);
    answer += 1;
    bench.row("version", "nothing is lent", 1, [Some(repeat(move || proved::version() as u64 + answer)), None, None]);
}

/// A record: of each hundred calls an arrival and a board reading, the others steps.
fn record(n: usize) -> Vec<Call> {
    let call = |k: usize| match k % 100 {
        0 => Call::Arrive((k / 100 % 4) as u32, HOST),
        50 => Call::Board((k / 100 % 6) as u32, HOST),
        _ => Call::Step,
    };
    (0..n).map(call).collect()
}

fn recorded(calls: &[Call]) -> Vec<u8> {
    let one = |c: &Call| match *c {
        Call::Arrive(e, who) => [&[0][..], &e.to_be_bytes(), &[who as u8]].concat(),
        Call::Step => vec![1, 0, 0, 0, 0, 0],
        Call::Board(i, who) => [&[2][..], &i.to_be_bytes(), &[who as u8]].concat(),
    };
    calls.iter().flat_map(one).collect()
}

fn replay<'a>(s: &'a Set, calls: &[Call]) -> Runner<'a> {
    let (bytes, mut answers) = (recorded(calls), vec![0u8; 8 * calls.len()]);
    let mut round = s.round.clone();
    repeat(move || {
        round.copy_from_slice(&s.round);
        let made = proved::replay(&s.table, &mut round, &bytes, &mut answers);
        answers
            .chunks_exact(8)
            .take(made)
            .fold(0, |sum: u64, a| sum.wrapping_add(u64::from_be_bytes(a.try_into().unwrap())))
    })
}

fn replay_rows(bench: &Bench) {
    let row = |s: &Set, calls: &[Call], input: &str| {
        let plain = s.plain(|m: &mut Model| calls.iter().fold(0, |sum: u64, c| sum.wrapping_add(packed(m.call(*c)))));
        bench.row("replay", input, calls.len(), [Some(replay(s, calls)), Some(plain), None]);
    };
    row(&set(&cases::game(), &[]), &record(1000), "1,000 calls on a game, a call");
    row(&long_event(FULL_EVENTS, 63), &[Call::Step; STEPS], "200 steps, 63 wait, 32 events, a call");
}

// ---- sheets and texts

fn compiled(s: &[u8], table: &mut [u8]) -> u64 {
    proved::compile(s, &[0; 32], table) as u64
}

fn compile<'a>(s: &'a [u8]) -> Runner<'a> {
    let mut table = vec![0u8; TABLE];
    repeat(move || compiled(s, &mut table))
}

fn circle<'a>(s: &'a [u8]) -> Runner<'a> {
    let mut list = [0u8; 64];
    repeat(move || {
        let answer = proved::circle(s, &[0; 32], &mut list);
        answer & 255 | answer >> 16 << 16
    })
}

fn agree<'a>(s: &'a [u8]) -> Runner<'a> {
    repeat(move || proved::agree(s, &[0; 32]))
}

fn agree_for<'a>(s: &'a [u8]) -> Runner<'a> {
    repeat(move || proved::agree_for(s, &[0; 32], 0))
}

fn pair<'a>(s: &'a [u8]) -> Runner<'a> {
    repeat(move || proved::pair(s, &[0; 32], 0, 1))
}

fn leak<'a>(s: &'a [u8]) -> Runner<'a> {
    repeat(move || proved::leak(s, &[0; 32], 1))
}

fn text<'a>(s: &'a [u8]) -> Runner<'a> {
    let mut field = vec![0u8; 7168];
    repeat(move || proved::formula(s, &mut field))
}

fn assembled<'a>(s: &'a [u8]) -> Runner<'a> {
    let mut buffer = vec![0u8; 8192];
    repeat(move || proved::assemble(s, &mut buffer))
}

/// Into a buffer of just enough bytes, in which a text is counted before it is written: the slower way.
fn described<'a>(s: &'a [u8]) -> Runner<'a> {
    let mut buffer = vec![0u8; 65536];
    let answer = proved::describe(s, &mut buffer);
    if answer >> 32 == 1 {
        buffer.truncate(answer as u32 as usize);
    }
    repeat(move || proved::describe(s, &mut buffer))
}

fn joined<'a>([a, b]: &'a [Vec<u8>; 2]) -> Runner<'a> {
    let mut buffer = vec![0u8; 8192];
    repeat(move || proved::join(a, b, &[0; 32], &mut buffer))
}

/// What the plain engine answers, and the number where it turns the sheet down.
fn plain_sheet<'a>(s: &'a [u8], then: impl Fn(engine::Sheet) -> u64 + 'a) -> Runner<'a> {
    repeat(move || engine::compile(black_box(s), &[0; 32]).map_or_else(|n| n as u64, &then))
}

/// Whether a case says that its call refuses it.
fn is_refused<T>((what, _): &(String, T)) -> bool {
    what.contains("refused by")
}

/// The slowest input that is accepted, and the slowest that is refused, where there is one.
fn both_worst<T: Clone>(bench: &Bench, all: &[(String, T)], call: impl Fn(&T) -> u64) -> Vec<(String, T)> {
    let (refused, accepted): (Vec<_>, Vec<_>) = all.iter().cloned().partition(is_refused);
    [accepted, refused]
        .iter()
        .filter(|part| !part.is_empty())
        .map(|part| {
            let (what, input) = bench.worst(part, &call);
            (what, input.clone())
        })
        .collect()
}

fn sheet_rows(bench: &Bench) {
    let families = cases::families();
    let find = |of: fn(&[u8]) -> Runner| both_worst(bench, &families, |s| of(s)(1));
    let typical = || vec![("a game".to_string(), cases::game())];
    let usual = [
        "S of the scope",
        "64 passives in a chain",
        "64 passives in a backward chain",
        "32 events, 12 actives of 60 nodes",
    ];
    let usual = families.iter().filter(|(what, _)| usual.contains(&what.as_str())).cloned();
    for (input, s) in typical().into_iter().chain(usual).chain(find(compile)) {
        let plain = plain_sheet(&s, |sheet| {
            black_box(Model::new(sheet));
            0
        });
        bench.row("compile", &of_bytes(&input, &s), 1, [Some(compile(&s)), Some(plain), None]);
    }
    for (input, s) in [typical(), find(agree)].concat() {
        let packed = |c: (usize, usize, usize)| 29 + ((c.0 as u64) << 8) + ((c.1 as u64) << 16) + ((c.2 as u64) << 24);
        let plain = plain_sheet(&s, move |sheet| sheet.clash().map_or(0, packed));
        bench.row("agree", &of_bytes(&input, &s), 1, [Some(agree(&s)), Some(plain), None]);
    }
    for (input, s) in [typical(), find(agree_for)].concat() {
        let packed = |c: (usize, usize, usize)| 29 + ((c.0 as u64) << 8) + ((c.1 as u64) << 16) + ((c.2 as u64) << 24);
        let plain = plain_sheet(&s, move |sheet| match sheet.behaviours.len() {
            0 => 18,
            _ => sheet.clash_for(0).map_or(0, packed),
        });
        bench.row("agree_for", &of_bytes(&input, &s), 1, [Some(agree_for(&s)), Some(plain), None]);
    }
    for (input, s) in [typical(), find(pair)].concat() {
        let plain = plain_sheet(&s, |sheet| match sheet.ranks.len() {
            0 | 1 => 15,
            _ => sheet.pair(0, 1).map_or(0, |(b, flags)| (1 << 32) + b as u64 + 256 * flags as u64),
        });
        bench.row("pair", &of_bytes(&input, &s), 1, [Some(pair(&s)), Some(plain), None]);
    }
    for (input, s) in [typical(), find(leak)].concat() {
        let packed = |c: (usize, usize)| 30 + ((c.0 as u64) << 8) + ((c.1 as u64) << 16);
        let plain = plain_sheet(&s, move |sheet| sheet.leak(1).map_or(0, packed));
        bench.row("leak", &of_bytes(&input, &s), 1, [Some(leak(&s)), Some(plain), None]);
    }
    let rings = cases::circles();
    let worst = vec![rings[0].clone(), named(bench.worst(&rings, |s| circle(s)(1)))];
    for (input, s) in [typical(), worst].concat() {
        let of = |s: &[u8]| engine::read(s).unwrap().shortest().unwrap() as u64;
        let plain = repeat(|| match engine::compile(black_box(&s), &[0; 32]) {
            Ok(_) => 0,
            Err(12) => 12 + (of(&s) << 16),
            Err(n) => n as u64,
        });
        bench.row("circle", &of_bytes(&input, &s), 1, [Some(circle(&s)), Some(plain), None]);
    }
    let pairs = cases::pairs();
    for (input, p) in [vec![pairs[0].clone()], both_worst(bench, &pairs, |p| joined(p)(1))].concat() {
        let plain = || {
            pool::pooled(black_box(&p[0]), &p[1], &[0; 32], 8192)
                .map_or_else(|n| n as u64, |v| (1 << 32) + v.len() as u64)
        };
        bench.row("join", &input, 1, [Some(joined(&p)), Some(repeat(plain)), None]);
    }
    let texts = cases::texts();
    for (input, t) in [texts[0].clone(), named(bench.worst(&texts, |t| text(t)(1)))] {
        let plain = || formula::plain(black_box(&t), 7168).map_or_else(|n| n, |v| (1 << 32) + v.len() as u64);
        bench.row("formula", &of_bytes(&input, &t), 1, [Some(text(&t)), Some(repeat(plain)), None]);
    }
}

fn text_rows(bench: &Bench) {
    let written = cases::written();
    let sheets: Vec<Case> = written.iter().map(|(what, sheet, _)| (what.clone(), sheet.clone())).collect();
    let (texts, families) = (cases::sheet_texts(), cases::families());
    let listed = texts[..written.len()].iter().cloned();
    let rest = texts[written.len()..].to_vec();
    let worst = vec![named(bench.worst(&rest, |t| assembled(t)(1)))];
    let known = cases::digits();
    for (input, t) in listed.chain([known]).chain(cases::hard_texts()).chain(worst) {
        let plain = || crate::text::assembled(black_box(&t), 8192);
        bench.row("assemble", &of_bytes(&input, &t), 1, [Some(assembled(&t)), Some(repeat(plain)), None]);
    }
    for (input, s) in sheets.into_iter().chain(both_worst(bench, &families, |s| described(s)(1))) {
        let length = |s: &[u8]| sheet_text::describe(s).map_or(0, |text| (1 << 32) + text.len() as u64);
        let plain = plain_sheet(&s, |_| length(&s));
        bench.row("describe", &of_bytes(&input, &s), 1, [Some(described(&s)), Some(plain), None]);
    }
}

fn named((input, bytes): (String, &Vec<u8>)) -> Case {
    (input, bytes.clone())
}

fn of_bytes(input: &str, bytes: &[u8]) -> String {
    format!("{input} ({} bytes)", bytes.len())
}

/// agree and leak beside compile, on every sheet of the families.
fn beside(bench: &Bench) {
    for (input, s) in cases::families() {
        let times = bench.race(&mut [compile(&s), agree(&s), leak(&s)]);
        let each: Vec<String> = times.iter().map(|t| said(&spread(t))).collect();
        let ratio = [ratios(&times[1], &times[0]), ratios(&times[2], &times[0])];
        println!("beside\t{}\t{}\t{}", of_bytes(&input, &s), each.join("\t"), ratio.join("\t"));
        eprint!(".");
    }
}

/// assemble of a sheet's text and describe beside compile of the sheet.
fn texts_beside(bench: &Bench) {
    for (input, sheet, text) in cases::written() {
        let times = bench.race(&mut [compile(&sheet), assembled(&text), described(&sheet)]);
        let each: Vec<String> = times.iter().map(|t| said(&spread(t))).collect();
        let ratio = [ratios(&times[1], &times[0]), ratios(&times[2], &times[0])];
        let input = format!("{input} ({} bytes, {} of text)", sheet.len(), text.len());
        println!("texts\t{input}\t{}\t{}", each.join("\t"), ratio.join("\t"));
        eprint!(".");
    }
}

// ---- growth

fn growth(bench: &Bench) {
    let eight = [8, 16, 32, 64];
    let trailing = |n: usize| cases::trailing(n, &[" ", "#\n"]);
    let grow =
        |call: &str, what: &str, sheet: &dyn Fn(usize) -> Vec<u8>, of: fn(&[u8]) -> Runner, sizes: [usize; 4]| {
            let sheets: Vec<Vec<u8>> = sizes.iter().map(|n| sheet(*n)).collect();
            let cases = sizes.iter().zip(&sheets).map(|(n, s)| (n.to_string(), of(s))).collect();
            bench.grows(call, what, cases);
        };
    let actives = |n: usize| cases::chained_actives(12, n);
    grow("compile", "behaviours: actives in a backward chain, 12 events", &actives, compile, eight);
    grow("compile", "behaviours: passives in a backward chain, 1 event", &|n| cases::chain(n, true), compile, eight);
    grow(
        "compile",
        "events, 64 actives in a backward chain",
        &|n| cases::chained_actives(n, 64),
        compile,
        [1, 3, 6, 12],
    );
    grow("compile", "bytes of passives", &cases::bytes_of, compile, [1024, 2048, 4096, 8192]);
    grow("agree", "behaviours: actives in a backward chain, 12 events", &actives, agree, eight);
    grow("agree", "bytes of passives", &cases::bytes_of, agree, [1024, 2048, 4096, 8192]);
    grow("leak", "behaviours: actives in a backward chain, 12 events", &actives, leak, eight);
    grow("leak", "bytes of passives", &cases::bytes_of, leak, [1024, 2048, 4096, 8192]);
    let late = |n: usize| cases::late_circle(FULL_EVENTS, n, 8192 * n / 64);
    grow("compile", "behaviours and bytes: a circle under the last of 32 events", &late, compile, eight);
    let late = |n: usize| cases::late_circle(n, 64, 8192);
    grow("compile", "events: a circle under the last", &late, compile, [4, 8, 16, 32]);
    grow("circle", "behaviours: a ring under 32 events", &|n| cases::ring(32, n), circle, eight);
    grow("circle", "events, a ring of 64", &|n| cases::ring(n, 64), circle, [4, 8, 16, 32]);
    grow("formula", "names, a sum in brackets", &cases::sum_of, text, [16, 32, 64, 128]);
    let sheets = [1024, 2048, 4096, 8192];
    let texts: Vec<Vec<u8>> = sheets.iter().map(|n| cases::text_of(*n)).collect();
    bench.grows("assemble", "bytes of text", texts.iter().map(|t| (t.len().to_string(), assembled(t))).collect());
    grow("assemble", "brackets", &cases::bracketed, assembled, [4000, 8000, 16000, 32000]);
    grow("assemble", "bytes of spaces", &|n| vec![b' '; n], assembled, [8000, 16000, 32000, 64000]);
    grow("assemble", "behaviours, each naming the last 15 times", &cases::text_of_names, assembled, eight);
    let long = [8192, 16_384, 32_768, 65_536];
    grow("assemble", "bytes of names alike, behind six !", &|n| cases::named_operands(n, 6), assembled, long);
    grow("assemble", "bytes of blanks and comments behind formulas", &trailing, assembled, long);
    grow("describe", "bytes of passives", &cases::bytes_of, described, sheets);
    grow("describe", "passives of if within if", &cases::chosen_cells, described, [2, 4, 8, 16]);
    let pairs: Vec<[Vec<u8>; 2]> = [512, 1024, 2048, 4096].map(|n| [cases::bytes_of(n), cases::bytes_of(n)]).into();
    let of = pairs.iter().map(|p| (p[0].len().to_string(), joined(p))).collect();
    bench.grows("join", "bytes of each sheet", of);
    rounds_growth(bench);
}

type AtFourSizes = [(String, Set); 4];

fn grow<const BACK: usize>(
    bench: &Bench,
    call: &str,
    what: &str,
    sets: &AtFourSizes,
    of: &dyn Fn(&[u8], &mut [u8]) -> u64,
) {
    bench.grows(call, what, sets.iter().map(|(n, s)| (n.clone(), s.bytes::<BACK>(of))).collect());
}

fn rounds_growth(bench: &Bench) {
    let hands = [8, 16, 32, 64];
    let sets = |make: &dyn Fn(usize) -> Set, sizes: [usize; 4]| sizes.map(|n| (n.to_string(), make(n)));
    let full = sets(&|n| set(&cases::game(), &arrivals(n - 1, 0)), hands);
    grow::<0>(bench, "preview", "in hand, a game", &full, &|t, l| proved::preview(t, l, 0, 0, HOST));
    grow::<0>(bench, "forecast", "in hand, a game", &full, &|t, l| proved::forecast(t, l));
    grow::<0>(bench, "board", "in hand, a game", &full, &|t, l| proved::board(t, l, 0, HOST));
    grow::<8>(bench, "arrive", "in hand, a game", &full, &|t, l| proved::arrive(t, l, 0, HOST) as u64);
    let runs = sets(&|n| long_event(1, n - 1), hands);
    grow::<RUNS>(bench, "step", "in hand, 200 instructions", &runs, &steps_of(proved::step));
    grow::<RUNS>(bench, "frame", "in hand, 200 instructions", &runs, &framed(proved::frame));
    let wide = sets(&|n| long_event(n, 0), [4, 8, 16, 32]);
    grow::<RUNS>(bench, "step", "events declared, 200 instructions", &wide, &steps_of(proved::step));
    let long = set(&cases::longest(4), &[arrivals(2, 0), vec![Call::Step]].concat());
    let steps = [500, 1000, 2000, 4000];
    let one = |n: u32| long.bytes::<ROUND>(move |t: &[u8], l: &mut [u8]| proved::frame(t, l, n, &mut [0u8; 8]));
    bench.grows("frame", "steps", steps.iter().map(|n| (n.to_string(), one(*n))).collect());
    let nodes = |n: usize| set(&cases::one_event(1, n, &crate::limits::con(1)), &arrivals(1, 0));
    let events = sets(&nodes, [40, 80, 160, 320]);
    grow::<0>(bench, "preview", "nodes of the one event in hand", &events, &|t, l| proved::preview(t, l, 0, 0, HOST));
    let game = set(&cases::game(), &[]);
    let of = [250, 500, 1000, 2000].iter().map(|n| (n.to_string(), replay(&game, &record(*n)))).collect();
    bench.grows("replay", "calls, on a game", of);
    let passives = |n: usize| {
        let s = join(&[
            event(1),
            crate::limits::active(1, &[]),
            crate::limits::passive(&cases::tree(61, 4, &name(0))).repeat(n),
        ]);
        set(&s, &arrivals(1, 0))
    };
    let mended = sets(&passives, [4, 8, 16, 32]);
    grow::<0>(bench, "mend", "passives of 61 nodes", &mended, &|t, l| proved::mend(t, t, l) as u64);
}

/// Everything; with no runs it only shows that the engines answer alike on every row.
pub fn run(runs: usize) {
    let bench = &Bench { runs };
    println!("runs\t{runs}");
    step_rows(bench);
    event_rows(bench);
    for size in [3, 30, 300] {
        stepped_rows(bench, size);
    }
    frame_rows(bench);
    round_rows(bench);
    replay_rows(bench);
    sheet_rows(bench);
    text_rows(bench);
    if runs > 0 {
        beside(bench);
        texts_beside(bench);
        growth(bench);
        eprintln!();
    }
}

/// The sheets that are measured with an old archive too.
pub fn sheets(folder: &str) {
    for (file, bytes) in [
        ("game", cases::game()),
        ("longest", cases::longest(4)),
        ("backward", cases::backward_twelve()),
        ("ring", cases::ring(32, 64)),
    ] {
        std::fs::write(format!("{folder}/{file}"), bytes).expect("a folder for sheets");
    }
}
