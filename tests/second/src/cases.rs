//! Inputs for the measurements: sheets and texts, each with what it is in words. `families` are those among which the
//! worst case of a call is looked for: the limits of 01 and 02 filled in every way that was thought of.
use crate::limits::{active, app, con, event, field, handler, join, name, of_bytes, passive};
use crate::make::Rng;

/// An input, and what it is.
pub type Case = (String, Vec<u8>);

pub const FULL_EVENTS: usize = 32;
pub const FULL_BEHAVIOURS: usize = 64;

/// The most parameters of a sheet.
const PARAMS: usize = 8;

/// The most bytes of a sheet, and of a sheet's text.
const FULL_SHEET: usize = 8192;
const FULL_TEXT: usize = 65_536;

const NOT: u8 = 3;
const ADD: u8 = 4;
const MULTIPLY: u8 = 6;
const DIVIDE: u8 = 7;
const IF: u8 = 14;

/// An expression of so many nodes, as flat as can be.
pub fn tree(size: usize, function: u8, leaf: &[u8]) -> Vec<u8> {
    match size {
        1 => leaf.to_vec(),
        2 => app(NOT, &[leaf.to_vec()]),
        _ => {
            let left = (size - 1) / 2;
            app(function, &[tree(left, function, leaf), tree(size - 1 - left, function, leaf)])
        }
    }
}

fn events(n: usize) -> Vec<u8> {
    event(1).repeat(n)
}

fn case(what: &str, bytes: Vec<u8>) -> Case {
    (what.to_string(), bytes)
}

// ---- sheets

/// Two players' daily puzzle: 4 events, 4 actives, 2 passives.
pub fn game() -> Vec<u8> {
    let sum = |i, w| app(ADD, &[name(i), con(w)]);
    join(&[
        [0, 1, 5, 15].map(event).concat(),
        active(0, &[handler(0, 0, &sum(0, 10)), handler(1, 1, &app(5, &[name(0), name(1)]))]),
        active(3, &[handler(2, 0, &app(14, &[app(8, &[name(0), con(100)]), sum(1, 1), name(1)]))]),
        active(0, &[handler(3, 0, &con(0)), handler(0, 0, &sum(2, 1))]),
        passive(&app(6, &[name(0), name(1)])),
        passive(&app(ADD, &[name(3), name(2)])),
        active(7, &[handler(1, 0, &app(DIVIDE, &[name(4), con(3)]))]),
    ])
}

/// One event whose handler has so many nodes, and all its leaves are this one.
pub fn one_event(declared: usize, size: usize, leaf: &[u8]) -> Vec<u8> {
    join(&[events(declared), active(0, &[handler(0, 0, &tree(size, ADD, leaf))])])
}

/// Passives in a chain, each one more than the one before it, or than the one behind it.
pub fn chain(n: usize, backwards: bool) -> Vec<u8> {
    let next = |i: usize| if backwards { i + 1 } else { i.wrapping_sub(1) };
    let link = |i: usize| if next(i) < n { app(ADD, &[name(next(i) as u8), con(1)]) } else { con(1) };
    join(&[event(1), (0..n).flat_map(|i| passive(&link(i))).collect()])
}

/// So many actives in a backward chain, each with a handler for each of so many events.
pub fn chained_actives(declared: usize, n: usize) -> Vec<u8> {
    let next = |i: usize| name((i + 1).min(n - 1) as u8);
    let handlers = |i: usize| (0..declared).map(|e| handler(e as u8, 0, &next(i))).collect::<Vec<_>>();
    join(&[events(declared), (0..n).flat_map(|i| active(0, &handlers(i))).collect()])
}

/// 64 actives with so many handlers each, spread over 32 events of 16 ranks.
pub fn spread_actives(each: usize) -> Vec<u8> {
    let of = |i: usize, k: usize| handler(((i * each + k) % FULL_EVENTS) as u8, 0, &name((i + 1).min(63) as u8));
    let ranks: Vec<u8> = (0..FULL_EVENTS).flat_map(|e| event((e % 16) as u8)).collect();
    let all = (0..FULL_BEHAVIOURS).flat_map(|i| active(0, &(0..each).map(|k| of(i, k)).collect::<Vec<_>>()));
    join(&[ranks, all.collect()])
}

/// 32 events, each with handlers of so many actives in a row, that are a backward chain.
pub fn bands(width: usize) -> Vec<u8> {
    let within = |e: usize, i: usize| (i + FULL_BEHAVIOURS - 2 * e) % FULL_BEHAVIOURS;
    let of = |e: usize, i: usize| {
        let to = if within(e, i) + 1 < width { (i + 1) % FULL_BEHAVIOURS } else { i };
        handler(e as u8, 0, &name(to as u8))
    };
    let handlers = |i: usize| (0..FULL_EVENTS).filter(|e| within(*e, i) < width).map(|e| of(e, i)).collect::<Vec<_>>();
    join(&[events(FULL_EVENTS), (0..FULL_BEHAVIOURS).flat_map(|i| active(0, &handlers(i))).collect()])
}

/// Passives, each the sum of the next eight.
pub fn dense(declared: usize, n: usize) -> Vec<u8> {
    let sum = |i: usize| (i + 1..n.min(i + 9)).fold(con(1), |e, j| app(ADD, &[e, name(j as u8)]));
    join(&[events(declared), (0..n).flat_map(|i| passive(&sum(i))).collect()])
}

/// Four rows of 16 cells, each with a handler for each of so many events, that names so many first cells further on.
pub fn rows(declared: usize, names: usize) -> Vec<u8> {
    let row = |k: usize| {
        let to = (16 * (k + 1)).min(48) as u8;
        let handlers = (0..declared).flat_map(|e| handler(e as u8, 0, &tree(2 * names - 1, ADD, &name(to))));
        field(6, &[vec![16], field(4, &[0; 4]), handlers.collect()].concat())
    };
    join(&[events(declared), (0..4).flat_map(row).collect()])
}

/// examples/daily.sheet, and its parameters as that page has them.
pub fn daily() -> (Vec<u8>, Vec<u8>) {
    let (text, mut sheet) = (include_bytes!("../../../examples/daily.sheet"), vec![0; FULL_SHEET]);
    let answer = crate::proved::assemble(text, &mut sheet);
    assert_eq!(answer >> 32, 1, "examples/daily.sheet is not a sheet");
    sheet.truncate(answer as u32 as usize);
    (sheet, [10u32, 3, 25, 0, 0, 0, 0, 0].map(u32::to_be_bytes).concat())
}

/// One event and 32 passives of 61 nodes: 4,042 instructions.
pub fn longest(function: u8) -> Vec<u8> {
    let step = active(1, &[handler(0, 0, &app(ADD, &[name(0), con(1)]))]);
    join(&[event(1), step, passive(&tree(61, function, &name(0))).repeat(32)])
}

/// The sheet of 8,192 bytes, with an event.
pub fn bytes_of(n: usize) -> Vec<u8> {
    join(&[event(1), of_bytes(n - event(1).len(), &name(0))])
}

/// The worst for the compiler that closed the dependence matrix.
pub fn backward_twelve() -> Vec<u8> {
    chained_actives(12, FULL_BEHAVIOURS)
}

/// A ring of so many passives under so many events.
pub fn ring(declared: usize, n: usize) -> Vec<u8> {
    join(&[events(declared), (0..n).flat_map(|i| passive(&name(((i + 1) % n) as u8))).collect()])
}

/// A ring of actives, closed by the last event's handlers alone.
fn ring_of_actives(declared: usize, n: usize) -> Vec<u8> {
    let of = |i: usize| handler(declared as u8 - 1, 0, &name(((i + 1) % n) as u8));
    join(&[events(declared), (0..n).flat_map(|i| active(0, &[of(i)])).collect()])
}

/// Passives that name each the next eight, the last the first.
fn dense_ring(declared: usize, n: usize) -> Vec<u8> {
    let next = |i: usize| (i + 1..n.min(i + 9)).fold(name(((i + 1) % n) as u8), |e, j| app(ADD, &[e, name(j as u8)]));
    join(&[events(declared), (0..n).flat_map(|i| passive(&next(i))).collect()])
}

/// An expression over these names, `if` of three of them, as flat as can be.
fn over_names(names: &[usize]) -> Vec<u8> {
    let mut parts: Vec<Vec<u8>> = names.iter().map(|i| name(*i as u8)).collect();
    while parts.len() > 1 {
        let (function, n) = if parts.len() > 2 { (IF, 3) } else { (ADD, 2) };
        let one = app(function, &parts[..n]);
        parts.drain(..n);
        parts.push(one);
    }
    parts.remove(0)
}

/// As many names as fit so many bytes, again and again in turn.
fn full_of(names: &[usize], bytes: usize) -> Vec<u8> {
    let many = |n: usize| over_names(&names.iter().cycle().take(n).copied().collect::<Vec<_>>());
    let n = (2..).find(|n| many(*n).len() > bytes).unwrap() - 1;
    many(n)
}

/// A circle that the last event alone closes, in so many bytes. Under every event before it all names of all passives
/// are read in vain. Under the last one a circle of the last two behaviours leads to the passives, and these lead to
/// another circle of two: they are in none, and from each of them the search goes through all.
pub fn late_circle(declared: usize, behaviours: usize, bytes: usize) -> Vec<u8> {
    let (last, passives) = (declared as u8 - 1, behaviours - 4);
    let [a, b, c, d] = [4, 3, 2, 1].map(|k| behaviours - k);
    let to = |e: Vec<u8>| active(0, &[handler(last, 0, &e)]);
    let leads = app(ADD, &[name(d as u8), over_names(&(0..passives.min(8)).collect::<Vec<_>>())]);
    let circles = join(&[to(name(b as u8)), to(name(a as u8)), to(leads), to(name(c as u8))]);
    let each = (bytes - declared * event(1).len() - circles.len()) / passives - passive(&[]).len();
    let names = |i: usize| [vec![a], (i + 1..passives.min(i + 4)).collect()].concat();
    join(&[events(declared), (0..passives).flat_map(|i| passive(&full_of(&names(i), each))).collect(), circles])
}

/// An active that an event shakes as a random number is, and passives of mixed functions of it: which way a branch goes
/// cannot be foretold.
pub fn shaken(passives: usize) -> Vec<u8> {
    fn mixed(size: usize, draw: &mut Rng) -> Vec<u8> {
        match size {
            1 if draw.one_in(2) => name(0),
            1 => con(draw.next() as i32 >> (4 * draw.below(8))),
            2 => app(NOT, &[mixed(1, draw)]),
            _ => {
                let left = (size - 1) / 2;
                let function = ADD + draw.below((DIVIDE - ADD + 1) as usize) as u8;
                app(function, &[mixed(left, draw), mixed(size - 1 - left, draw)])
            }
        }
    }
    let draw = &mut Rng::new(41);
    let shake = app(ADD, &[app(MULTIPLY, &[name(0), con(1_103_515_245)]), con(12_345)]);
    let mut sheet = join(&[event(1), active(12_345, &[handler(0, 0, &shake)])]);
    for _ in 0..passives {
        let one = passive(&mixed(61, draw));
        if sheet.len() + one.len() <= FULL_SHEET {
            sheet.extend(one);
        }
    }
    sheet
}

/// Passives of `if` within `if`, each leaf the last cell of a row that stands behind them.
pub fn chosen_cells(passives: usize) -> Vec<u8> {
    fn chosen(deep: usize, leaf: &[u8]) -> Vec<u8> {
        match deep {
            0 => leaf.to_vec(),
            _ => app(IF, &vec![chosen(deep - 1, leaf); 3]),
        }
    }
    let row = field(6, &[vec![16], field(4, &[0; 4])].concat());
    join(&[event(1), passive(&chosen(4, &name(passives as u8 + 15))).repeat(passives), row])
}

/// Handlers that hide every other behaviour from player 1: what it sees names what it sees.
pub fn hidden_halves() -> Vec<u8> {
    let link = |i: usize| if i + 2 < 64 { app(ADD, &[name(i as u8 + 2), con(1)]) } else { con(1) };
    let seen = |i: usize| field(8, &[if i % 2 == 0 { 255 } else { 1 }]);
    join(&[event(1), (0..64).flat_map(|i| field(2, &[link(i), seen(i)].concat())).collect()])
}

/// Sheets that compile accepts, or has much to do with before it turns them down.
pub fn families() -> Vec<Case> {
    let mut all = vec![
        case("S of the scope", crate::desk::sheet_s()),
        case("a game", game()),
        case("64 passives in a chain", chain(64, false)),
        case("64 passives in a backward chain", chain(64, true)),
        case("64 passives, each the sum of the next 8", dense(1, 64)),
        case("21 passives, each the sum of the next 8, 4 events", dense(4, 21)),
        case("12 events, 64 actives in a backward chain", backward_twelve()),
        case("32 events, 64 actives, 4 handlers each", spread_actives(4)),
        case("32 events, 64 actives, 8 handlers each", spread_actives(8)),
        case("32 events, 64 actives, 11 handlers each", spread_actives(11)),
        case("32 passives of 61 nodes", longest(ADD)),
        case("8,192 bytes of passives", bytes_of(8192)),
        case("32 events, 20 passives in a backward chain", {
            let link = |i: u8| passive(&if i < 19 { name(i + 1) } else { con(1) });
            join(&[events(32), (0..20).flat_map(link).collect()])
        }),
        case("32 events, 22 actives of each in a backward chain", bands(22)),
        case(
            "32 events, 64 actives without handlers",
            join(&[events(32), (0..64).flat_map(|i| active(i, &[])).collect()]),
        ),
        case("32 events, 12 actives of 60 nodes", {
            let one = |i: u8| active(0, &[handler(i, 0, &tree(60, ADD, &name(i)))]);
            join(&[events(32), (0..12).flat_map(one).collect()])
        }),
        case("hidden from player 1: every other of 64 passives", hidden_halves()),
        case("16 passives of if within if, each leaf a cell of a row behind them", chosen_cells(16)),
        case("a circle under the last of 32 events", late_circle(FULL_EVENTS, FULL_BEHAVIOURS, FULL_SHEET)),
        case("a ring of 64 passives under 32 events", ring(FULL_EVENTS, FULL_BEHAVIOURS)),
    ];
    for (declared, names) in [(15, 1), (8, 5), (32, 1), (32, 7)] {
        all.push((format!("4 rows of 16 cells, {declared} events, {names} names a handler"), rows(declared, names)));
    }
    all.into_iter().map(with_refusal).collect()
}

/// Where the sheet is turned down, that is said of it.
fn with_refusal((what, bytes): Case) -> Case {
    match crate::engine::compile(&bytes, &[0; 32]) {
        Ok(_) => (what, bytes),
        Err(n) => (format!("{what}, refused by {n}"), bytes),
    }
}

/// Sheets with circles.
pub fn circles() -> Vec<Case> {
    vec![
        case("a ring of 3 passives", ring(2, 3)),
        case("a ring of 64 passives under 32 events", ring(32, 64)),
        case("a ring of 64 actives, by the last of 32 events", ring_of_actives(32, 64)),
        case("64 passives under 32 events, each names the next 8, the last the first", dense_ring(32, 64)),
        case("32 passives under 32 events, each names the next 8, the last the first", dense_ring(32, 32)),
        case("a circle under the last of 32 events", late_circle(FULL_EVENTS, FULL_BEHAVIOURS, FULL_SHEET)),
    ]
}

/// Two sheets to join.
pub fn pairs() -> Vec<(String, [Vec<u8>; 2])> {
    let twice = |what: &str, s: Vec<u8>| (format!("twice: {what}"), [s.clone(), s]);
    vec![
        (
            "S of the scope and a bonus of one passive".into(),
            [crate::desk::sheet_s(), join(&[event(1), passive(&con(9))])],
        ),
        twice("4,096 bytes of passives", bytes_of(4096)),
        twice("6 events, 32 actives in a backward chain", chained_actives(6, 32)),
        twice("12 events, 32 actives in a backward chain", chained_actives(12, 32)),
        twice("2 rows of 16 cells", {
            let row = field(6, &[vec![16], field(4, &[0; 4]), handler(0, 0, &name(0))].concat());
            join(&[events(32), row.repeat(2)])
        }),
        twice(
            "16 passives of 61 nodes",
            join(&[event(1), active(1, &[]), passive(&tree(61, ADD, &name(0))).repeat(15)]),
        ),
        ("12 events, 64 actives in a backward chain, and nothing".into(), [backward_twelve(), vec![]]),
        twice("32 events, 22 actives of each in a backward chain, refused by 3", bands(22)),
    ]
}

// ---- formulas

fn sum(names: usize) -> String {
    match names {
        1 => "b0".to_string(),
        n => format!("({} + {})", sum(n / 2), sum(n - n / 2)),
    }
}

/// Texts of at most 1,024 bytes.
pub fn texts() -> Vec<Case> {
    let text = |what: &str, t: String| case(what, t.into_bytes());
    let deep = |n: usize, open: &str, close: &str| format!("{}b0{}", open.repeat(n), close.repeat(n));
    vec![
        text("b0 + b1 * 2", "b0 + b1 * 2".into()),
        text("a sum of 128 names in brackets", sum(128)),
        text("a name in 511 brackets", deep(511, "(", ")")),
        text("1,022 times !", deep(1022, "!", "")),
        text("if within if, 146 deep", deep(146, "if(1,", ",0)")),
        text("341 sums of names, one behind the other", deep(341, "b0+", "")),
        text("1,024 opening brackets", "(".repeat(1024)),
        text("1,024 spaces", " ".repeat(1024)),
        text("a number of 1,024 digits", "0".repeat(1024)),
    ]
}

// ---- sheets as text

/// What it is, a sheet that compile accepts, and a text of it.
pub type Written = (String, Vec<u8>, Vec<u8>);

/// The name of a behaviour, by its number.
type Name = fn(usize) -> String;

/// Everyday sheets and full ones of several shapes, with their descriptions; the last with names that are hard to tell
/// apart.
pub fn written() -> Vec<Written> {
    let named = full_of_names(FULL_BEHAVIOURS);
    let mut all: Vec<Written> = vec![
        described("a game", game()),
        described("S of the scope", crate::desk::sheet_s()),
        described("full of names", named.clone()),
        described("full of cells of a row", full_of_cells()),
        described("full of constants", passives(46, &tree(31, ADD, &con(i32::MIN)))),
        described("full of nesting, 16 deep", passives(46, &(0..15).fold(con(1), |e, _| app(5, &[con(1), e])))),
        described("full of handlers", spread_actives(11)),
        described("full of events and actives", every_event(20)),
    ];
    let hard: [(&str, Name); 4] = [
        ("that differ at their end", differ_at_the_end),
        ("that differ in the middle", |i| format!("{0}{i:02}{0}", "x".repeat(15))),
        ("that differ at the front", differ_at_the_front),
        ("that differ in length", |i| ["x", "y"][i / 32].repeat(i % 32 + 1)),
    ];
    for (how, name) in hard {
        all.push((format!("full of names {how}"), named.clone(), text_with(&named, name)));
    }
    let chosen = full_of_choices();
    let text = text_with(&chosen, differ_at_the_front);
    all.push(("full of choices between such names".to_string(), chosen, text));
    all
}

fn differ_at_the_front(i: usize) -> String {
    format!("x{i:02}{}", "x".repeat(29))
}

/// A name of 31 or 32 bytes, of which the last ones tell it.
fn differ_at_the_end(i: usize) -> String {
    format!("{}{i}", "x".repeat(30))
}

/// The text of passives that name the last behaviour, with long names.
pub fn text_of_names(behaviours: usize) -> Vec<u8> {
    text_with(&full_of_names(behaviours), differ_at_the_end)
}

/// A sheet's description with other names for its behaviours, which have no `b`; b1 is not the beginning of b12.
fn text_with(sheet: &[u8], name: Name) -> Vec<u8> {
    let text = sheet_text::describe(sheet).expect("a sheet");
    (0..FULL_BEHAVIOURS).rev().fold(text, |t, i| t.replace(&format!("b{i}"), &name(i))).into_bytes()
}

fn described(what: &str, sheet: Vec<u8>) -> Written {
    assert!(crate::engine::compile(&sheet, &[0; 32]).is_ok(), "{what} is not accepted");
    let text = sheet_text::describe(&sheet).expect("a sheet");
    (what.to_string(), sheet, text.into_bytes())
}

/// An event and passives alike.
fn passives(n: usize, e: &[u8]) -> Vec<u8> {
    join(&[event(1), passive(e).repeat(n)])
}

/// So many behaviours: passives that name the active behind them.
fn full_of_names(behaviours: usize) -> Vec<u8> {
    let last = behaviours - 1;
    join(&[event(1), passive(&tree(29, ADD, &name(last as u8))).repeat(last), active(1, &[])])
}

/// Passives that choose, twice over, between the active behind them and itself.
fn full_of_choices() -> Vec<u8> {
    let last = FULL_BEHAVIOURS - 1;
    let thrice = |e: Vec<u8>| app(IF, &[e.clone(), e.clone(), e]);
    join(&[event(1), passive(&thrice(thrice(name(last as u8)))).repeat(last), active(1, &[])])
}

/// A row, and passives that name its last cell.
fn full_of_cells() -> Vec<u8> {
    let row = field(6, &[vec![16], field(4, &[0; 4])].concat());
    join(&[event(1), row, passive(&tree(41, ADD, &name(15))).repeat(47)])
}

/// 32 events with senders, and so many actives with a handler for each of them.
fn every_event(n: usize) -> Vec<u8> {
    let handlers: Vec<Vec<u8>> = (0..FULL_EVENTS).map(|e| handler(e as u8, 1, &name(0))).collect();
    join(&[field(1, &[15, 0xFF]).repeat(FULL_EVENTS), active(i32::MIN, &handlers).repeat(n)])
}

/// So many names of three bytes, as much alike as they can be: by their first byte, and where these are used up by the
/// second.
fn alike(n: usize) -> Vec<String> {
    let firsts = ('a'..='z').chain('A'..='Z').chain(['_']).map(|c| format!("{c}xx"));
    let seconds = ('0'..='9').chain('a'..='w').map(|c| format!("a{c}x"));
    firsts.chain(seconds).take(n).collect()
}

/// As many names as there can be, and as short: of one byte, and where these are used up of two.
fn short(n: usize) -> Vec<String> {
    let letters: Vec<char> = ('a'..='z').chain('A'..='Z').chain(['_']).collect();
    let longer = letters.iter().map(|c| format!("x{c}")).take(n - letters.len());
    longer.chain(letters.iter().map(char::to_string)).collect()
}

/// A text of so many bytes with 8 parameters and 64 passives of these names: each formula is made by `formula`, which is
/// lent the name of the last passive and how many bytes it may take. Blanks fill up what is left.
fn text_of_operands(bytes: usize, names: &[String], formula: &mut dyn FnMut(&str, usize) -> String) -> Vec<u8> {
    let (params, passives) = names.split_at(PARAMS);
    let start: String = params.iter().map(|p| format!("param {p}\n")).collect();
    let heads: Vec<String> = passives.iter().map(|p| format!("passive {p}=")).collect();
    let longest = heads.iter().map(String::len).max().unwrap();
    let each = (bytes - start.len()) / FULL_BEHAVIOURS - longest - 1;
    let one = |head: &String| format!("{head}{:each$}\n", formula(passives.last().unwrap(), each));
    (start + &heads.iter().map(one).collect::<String>()).into_bytes()
}

/// So many leaves under operators of six levels, which do without brackets, and brackets around these.
fn leveled(leaf: &str, leaves: usize, level: usize) -> String {
    const OPERATORS: [&str; 6] = ["*", "+", "<", "==", "&&", "||"];
    match (leaves, level) {
        (1, _) => leaf.to_string(),
        (_, 0) => format!("({})", leveled(leaf, leaves, OPERATORS.len())),
        _ => {
            let left = leaves.next_power_of_two() / 2;
            leveled(leaf, left, level - 1) + OPERATORS[level - 1] + &leveled(leaf, leaves - left, level - 1)
        }
    }
}

/// Formulas of this operand, else of the name of the last of these, as often as it fits, behind so many `!`. The sheet
/// gets too long, and is read to its end.
fn operands(bytes: usize, names: &[String], operand: Option<&str>, nots: usize) -> Vec<u8> {
    let most = 1 << (15 - nots);
    text_of_operands(bytes, names, &mut |last, room| {
        let leaf = "!".repeat(nots) + operand.unwrap_or(last);
        let leaves = (2..=most).find(|n| leveled(&leaf, *n, 6).len() > room).unwrap_or(most + 1) - 1;
        leveled(&leaf, leaves, 6)
    })
}

/// The leaf in chains of `*` within chains of `+`, of `<` and of `==`, so many more in each: no bracket, and next to no
/// operator of two bytes, so that a text is hardly anything but operands.
fn chained(leaf: &str, more: [usize; 4]) -> String {
    ["*", "+", "<", "=="]
        .iter()
        .zip(more)
        .fold(leaf.to_string(), |text, (operator, n)| vec![text; n + 1].join(operator))
}

/// The chains of at most 15 more operands in all, which nesting 16 allows, that take most of the room.
fn longest_chain(leaf: &str, room: usize) -> String {
    let each = || 0..8usize;
    let all =
        each().flat_map(|a| each().flat_map(move |b| each().flat_map(move |c| each().map(move |d| [a, b, c, d]))));
    let leaves = |more: &[usize; 4]| more.iter().map(|n| n + 1).product::<usize>();
    let fits = |more: &[usize; 4]| leaves(more) * (leaf.len() + 1) <= room + 8 && chained(leaf, *more).len() <= room;
    let deep = |more: &[usize; 4]| more.iter().sum::<usize>() < 16;
    chained(leaf, all.filter(deep).filter(fits).max_by_key(leaves).unwrap())
}

/// Formulas of this operand in such chains.
fn chains(bytes: usize, names: &[String], operand: &str) -> Vec<u8> {
    let mut known = None;
    text_of_operands(bytes, names, &mut |_, room| known.get_or_insert_with(|| longest_chain(operand, room)).clone())
}

/// Formulas that name the last of 72 names, which are alike, behind so many `!`.
pub fn named_operands(bytes: usize, nots: usize) -> Vec<u8> {
    operands(bytes, &alike(PARAMS + FULL_BEHAVIOURS), None, nots)
}

/// Formulas in which sixteen end at one place, behind it these pieces without a pattern.
pub fn trailing(bytes: usize, pieces: &[&str]) -> Vec<u8> {
    let draw = &mut Rng::new(1);
    let longest = pieces.iter().map(|p| p.len()).max().unwrap();
    text_of_operands(bytes, &alike(PARAMS + FULL_BEHAVIOURS), &mut |last, room| {
        let operators: String = ["||", "&&", "==", "<", "+", "*"].map(|op| last.to_string() + op).concat();
        let mut text = operators + &"!".repeat(9) + last;
        while text.len() + longest <= room {
            text += pieces[draw.below(pieces.len())];
        }
        text
    })
}

/// A number of so many digits that the text is full.
pub fn digits() -> Case {
    case("a number of 65,524 digits", format!("passive a = {}", "0".repeat(FULL_TEXT - 12)).into_bytes())
}

/// Texts that are hard to read: most are read to the end of the last formula, the others are at fault late.
pub fn hard_texts() -> Vec<Case> {
    let (like, short) = (alike(PARAMS + FULL_BEHAVIOURS), short(PARAMS + FULL_BEHAVIOURS));
    let behind = |token: &str| format!("passive a = {}1 {}", "!".repeat(15), token.repeat(FULL_TEXT - 29)).into_bytes();
    vec![
        case("72 names alike, the last one behind six !, refused by 40", named_operands(FULL_TEXT, 6)),
        case("72 names alike, the last one again and again, refused by 40", named_operands(FULL_TEXT, 0)),
        case("72 short names, the last one again and again, refused by 40", operands(FULL_TEXT, &short, None, 0)),
        case("72 names alike, another one again and again, refused by 38", operands(FULL_TEXT, &like, Some("axy"), 0)),
        case("72 short names, one of them in chains without brackets, refused by 40", chains(FULL_TEXT, &short, "b")),
        case("72 short names, i in such chains, refused by 40", chains(FULL_TEXT, &short, "i")),
        case("72 short names, one of two bytes in such chains, refused by 40", chains(FULL_TEXT, &short, "xa")),
        case("72 names alike, a short one in such chains, refused by 38", chains(FULL_TEXT, &like, "k")),
        case("ones in such chains, refused by 40", chains(FULL_TEXT, &like, "1")),
        case("minus ones in such chains, refused by 40", chains(FULL_TEXT, &like, "-1")),
        case("ones behind six !, refused by 40", operands(FULL_TEXT, &like, Some("1"), 6)),
        case("ones again and again, refused by 40", operands(FULL_TEXT, &like, Some("1"), 0)),
        case("sixteen formulas end before blanks, 64 times", trailing(FULL_TEXT, &[" "])),
        case("sixteen formulas end before blanks and comments, 64 times", trailing(FULL_TEXT, &[" ", "#\n"])),
        case("sixteen formulas end before 65,507 digits, refused by 31", behind("0")),
        case("sixteen formulas end before a word of 65,507 bytes, refused by 31", behind("a")),
    ]
}

/// Sheets as text, the first a game: those above, and texts that are long, deep in brackets or functions, or read to
/// their last byte.
pub fn sheet_texts() -> Vec<Case> {
    let text = |what: &str, t: String| case(what, t.into_bytes());
    let passive = |formula: String| format!("passive a = {formula}");
    let filled = |piece: &str| passive(piece.repeat((FULL_TEXT - 12) / piece.len()));
    let nested = |n: usize, open: &str, close: &str| passive(format!("{}1{}", open.repeat(n), close.repeat(n)));
    let mut all: Vec<Case> = written().into_iter().map(|(what, _, text)| (what, text)).collect();
    all.extend([
        text("a number in 32,000 brackets", nested(32_000, "(", ")")),
        text("if within if, 15 deep", nested(15, "if(1,", ",0)")),
        text("sums within sums, 15 deep", nested(15, "1+(", ")")),
        text("every operator within the next, 15 deep", nested(2, "1||(1&&(1==(1<(1+(1*(!", "))))))") + "+1"),
        text("15 times ! and 4,000 brackets each", nested(15, &format!("!{}", "(".repeat(4000)), &")".repeat(4000))),
        text("65,524 opening brackets", filled("(")),
        text("a sum of 32,762 ones", filled("1+")),
        digits(),
        text("65,524 spaces", filled(" ")),
        text("a name in 32,000 brackets, unknown", nested(32_000, "(", ")").replace('1', "b")),
        text("65,537 bytes", " ".repeat(65_537)),
    ]);
    all.extend(hard_texts());
    all
}

/// A number in so many brackets.
pub fn bracketed(n: usize) -> Vec<u8> {
    format!("passive a={}1{}", "(".repeat(n), ")".repeat(n)).into_bytes()
}

/// The text of a sheet of passives that has so many bytes.
pub fn text_of(bytes: usize) -> Vec<u8> {
    sheet_text::describe(&bytes_of(bytes)).expect("a sheet").into_bytes()
}

pub fn sum_of(names: usize) -> Vec<u8> {
    sum(names).into_bytes()
}
