//! The Rust crate's types against the raw calls: the same answers, taken apart rightly, and the same bytes.
use poqashem::record::{Reader, Recorder, Request, Verdict, Writer};
use poqashem::{Answer, Behaviour, Event, Params, Player, Refusal, Round, Sheet, Step};

use crate::compare::{self, Case};
use crate::engine::Call;
use crate::make::Rng;
use crate::proved::{self, ROUND, TABLE};

/// The number of a result, as the call packs it.
fn number<T>(done: Result<T, Refusal>, packed: impl Fn(T) -> u64) -> u64 {
    done.map_or_else(|r| r.number() as u64, packed)
}

fn word(v: u32) -> u64 {
    (1 << 32) + v as u64
}

/// A step packed by hand.
fn step(s: Step) -> u64 {
    let about = |kind: u64, a: poqashem::Arrival| {
        a.number as u64 * 65536 + a.event.0 as u64 * 256 + a.player.0 as u64 * 16 + kind
    };
    match s {
        Step::Idle => 0,
        Step::Ran => 1,
        Step::Started(a) => about(2, a),
        Step::Committed { arrival, over } => about(3, arrival) + if over { 1 << 56 } else { 0 },
        Step::BrokeIn(a) => about(4, a),
    }
}

fn typed(c: Call) -> poqashem::Call {
    match c {
        Call::Arrive(e, who) => poqashem::Call::Arrive(Event(e), Player(who)),
        Call::Step => poqashem::Call::Step,
        Call::Board(i, who) => poqashem::Call::Board(Behaviour(i), Player(who)),
    }
}

fn call(round: &mut Round, c: Call) -> u64 {
    match typed(c) {
        poqashem::Call::Arrive(e, who) => number(round.arrive(e, who), |()| 0),
        poqashem::Call::Step => number(round.step(), step),
        poqashem::Call::Board(i, who) => number(round.board(i, who), |v| word(v as u32)),
    }
}

fn answer(a: Answer) -> u64 {
    match a {
        Answer::Taken => 0,
        Answer::Step(s) => step(s),
        Answer::Value(v) => word(v as u32),
        Answer::Refused(r) => r.number() as u64,
    }
}

/// What the sheet's calls answer, with parameters or with none.
fn sheets(sheet: &Sheet, params: Option<&Params>, lent: &[u8]) {
    let bytes = sheet.bytes();
    let mut list = [0u8; 64];
    let got = proved::circle(bytes, lent, &mut list);
    let circle = |c: Option<poqashem::Circle>| {
        c.map_or(0, |c| {
            let members: Vec<u8> = c.behaviours.iter().map(|b| b.0 as u8).collect();
            assert_eq!(members, list[..members.len()], "a circle's behaviours");
            12 + c.event.map_or(255, |e| e.0 as u64) * 256 + members.len() as u64 * 65536
        })
    };
    assert_eq!(number(sheet.circle(params), circle), got, "circle");
    {
        let clash = |c: Option<poqashem::Clash>| {
            c.map_or(0, |c| {
                29 + ((c.first.0 as u64) << 8) + ((c.second.0 as u64) << 16) + ((c.behaviour.0 as u64) << 24)
            })
        };
        assert_eq!(number(sheet.agree(params), clash), proved::agree(bytes, lent), "agree");
    }
    for who in 0..9 {
        let leak =
            |l: Option<poqashem::Leak>| l.map_or(0, |l| 30 + ((l.seen.0 as u64) << 8) + ((l.hidden.0 as u64) << 16));
        assert_eq!(number(sheet.leak(params, Player(who)), leak), proved::leak(bytes, lent, who), "leak");
    }
    let mut text = vec![0u8; poqashem::SHEET_TEXT];
    let described = proved::describe(bytes, &mut text);
    let same = |s: String| {
        assert!(text.starts_with(s.as_bytes()), "the sheet as text");
        assert_eq!(Sheet::assemble(&s).as_ref(), Ok(sheet), "and back");
        word(s.len() as u32)
    };
    assert_eq!(number(sheet.describe(), same), described, "describe");
    let mut both = vec![0u8; 8192];
    let joined = proved::join(bytes, bytes, lent, &mut both);
    let same = |s: Sheet| {
        assert!(both.starts_with(s.bytes()), "the joined sheet");
        word(s.bytes().len() as u32)
    };
    assert_eq!(number(sheet.join(sheet, params), same), joined, "join");
}

/// A round by the types and one by raw calls, side by side; then the same list replayed, and recorded and audited.
fn rounds(r: &mut Rng, sheet: &Sheet, params: Option<&Params>, table: &[u8], calls: &[Call]) {
    let own = sheet.compile(params).expect("accepted");
    let mut round = own.start().expect("a table of compile's");
    let mut l = vec![0u8; ROUND];
    assert_eq!(proved::start(table, &mut l), 0);
    assert_eq!(
        [number(own.events(), word), number(own.behaviours(), word), number(own.rank(Event(1)), word)],
        [proved::event_count(table), proved::behaviour_count(table), proved::event_rank(table, 1)]
    );
    let mut answers = vec![];
    for (k, c) in calls.iter().enumerate() {
        let got = compare::call(table, &mut l, *c);
        assert_eq!(call(&mut round, *c), got, "{c:?} by the types");
        assert!(l == round.bytes(), "{c:?} by the types: the round");
        answers.push(got);
        if *c == Call::Step {
            let told = Step::from_answer(got).expect("a step's").map(Step::told);
            assert_eq!(number(told, step), proved::told(got), "told");
        }
        if k % 32 == 5 {
            let (e, i, who) = (r.below(6) as u32, r.below(6) as u32, r.below(9) as u32);
            assert_eq!(
                number(round.preview(Event(e), Behaviour(i), Player(who)), |v| word(v as u32)),
                proved::preview(table, &l, e, i, who)
            );
            assert_eq!(number(round.forecast(), word), proved::forecast(table, &l));
        }
    }
    let mut again = own.start().unwrap();
    let replayed = again.replay(&calls.iter().map(|c| typed(*c)).collect::<Vec<_>>());
    assert_eq!(replayed.into_iter().map(answer).collect::<Vec<_>>(), answers, "replay by the types");
    assert!(again.bytes() == round.bytes() && again.table() == &own, "the round of a replay");
    assert_eq!(Round::from_bytes(&own, again.bytes()).bytes(), round.bytes(), "a saved round");
    recorded(sheet, params, calls, &answers);
    frames(r, own.start().unwrap(), Recorder::start("frames", sheet.clone(), params.copied()).unwrap(), calls);
}

/// Frames between the calls, by the types, recorded and raw.
fn frames(r: &mut Rng, mut round: Round, mut recorder: Recorder, calls: &[Call]) {
    let table = round.table().clone();
    let mut l = round.bytes().to_vec();
    for c in calls.iter().take(40) {
        if let poqashem::Call::Arrive(e, who) = typed(*c) {
            let _ = (round.arrive(e, who), recorder.arrive(e, who), proved::arrive(table.bytes(), &mut l, e.0, who.0));
        }
        let (steps, room) = (r.below(30) as u32, r.below(3));
        let mut commits = vec![0u8; 8 * room];
        let got = proved::frame(table.bytes(), &mut l, steps, &mut commits);
        let frame = round.frame(steps, room);
        let why = [poqashem::Ended::Made, poqashem::Ended::Idle, poqashem::Ended::Refused, poqashem::Ended::Full];
        assert_eq!(Some(&frame.ended), why.get((got >> 56) as usize), "why a frame ended");
        assert_eq!(frame.steps, got as u32, "steps of a frame");
        let packed: Vec<u8> = frame.commits.iter().flat_map(|c| step(*c).to_be_bytes()).collect();
        assert_eq!(frame.commits.len() as u64, got >> 32 & 0xFF_FFFF, "how many commits of a frame");
        assert!(commits.starts_with(&packed), "commits of a frame");
        assert!(l == round.bytes(), "the round of a frame");
        assert_eq!(recorder.frame(steps, room as u32), frame, "a recorded frame");
        let entry = recorder.record().entries().last().unwrap().unwrap();
        assert_eq!((entry.answer, entry.commits), (got, &packed[..]), "a frame in the record");
    }
    assert!(matches!(poqashem::record::audit(recorder.record()), Verdict::Agrees { .. }), "an audit of frames");
}

/// Recorded, written, read and audited; then gone on with.
fn recorded(sheet: &Sheet, params: Option<&Params>, calls: &[Call], answers: &[u64]) {
    let mut recorder = Recorder::start("a seed's", sheet.clone(), params.copied()).expect("accepted");
    for c in calls {
        match typed(*c) {
            poqashem::Call::Arrive(e, who) => drop(recorder.arrive(e, who)),
            poqashem::Call::Step => drop(recorder.step()),
            poqashem::Call::Board(i, who) => drop(recorder.board(i, who)),
        }
    }
    let settling = recorder.mend(sheet.clone(), params.copied());
    let record = recorder.record();
    let entries: Vec<_> = record.entries().map(|e| e.expect("an entry")).collect();
    assert_eq!(entries.iter().map(|e| e.answer).take(calls.len()).collect::<Vec<_>>(), answers, "the answers recorded");
    let last = entries.last().unwrap();
    assert_eq!((last.request, last.answer), (Request::Mend(0), number(settling, |()| 0)), "a change to the same sheet");
    let mut file = Writer::new(vec![]).unwrap();
    file.write(record).unwrap();
    let read: Vec<_> = Reader::new(&file.into_inner()[..]).collect::<Result<_, _>>().expect("no damage");
    assert_eq!(read.len(), 1);
    assert_eq!(read[0].body(), record.body(), "what is read is what was written");
    assert_eq!(poqashem::record::audit(&read[0]), Verdict::Agrees { calls: calls.len() as u64 + 1 });
    let on = Recorder::resume(read[0].clone()).expect("the same engine");
    assert!(on.round().bytes() == recorder.round().bytes(), "the round goes on where it stopped");
}

/// A seed's sheet and calls, with 32 bytes of parameters and with none.
pub fn one(seed: u64, case: &Case) {
    let r = &mut Rng::new(seed ^ 0x7E);
    let sheet = Sheet::new(&case.bytes[..]);
    let full: Option<Params> = case.params.get(..32).map(|p| Params::from_bytes(p.try_into().unwrap()));
    for params in [full.as_ref(), None] {
        let lent = params.map_or(&[][..], |p| &p.bytes()[..]);
        let mut table = vec![0u8; TABLE];
        let got = proved::compile(&case.bytes, lent, &mut table) as u64;
        let compiled = sheet.compile(params);
        assert_eq!(number(compiled.as_ref().map_err(|r| *r), |_| 0), got, "compile by the types");
        sheets(&sheet, params, lent);
        if let Ok(own) = compiled {
            assert!(table == own.bytes()[..], "the table by the types");
            let few = case.calls.len().min(200);
            rounds(r, &sheet, params, &table, &case.calls[..few]);
        }
    }
    for text in ["b0 + 1", "if(b0 < 2, b1, !b2)", "1 +", "9999999999", "!!!!!!!!!!!!!!!!b0"] {
        let mut buffer = vec![0u8; 7168];
        let got = proved::formula(text.as_bytes(), &mut buffer);
        let same = |field: Vec<u8>| {
            assert!(buffer.starts_with(&field), "the field of {text}");
            word(field.len() as u32)
        };
        assert_eq!(number(poqashem::formula(text), same), got, "formula {text}");
    }
}
