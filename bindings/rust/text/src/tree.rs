//! A sheet as its bytes and its text have it: what is declared, in order; rows as rows.

/// A whole sheet.
#[derive(Clone, Debug, Default, PartialEq, Eq)]
pub struct Sheet {
    /// Numbered from 0.
    pub events: Vec<Event>,
    /// As declared; a row is one of them here and takes as many numbers as it has cells.
    pub behaviours: Vec<Behaviour>,
}

/// An event.
#[derive(Clone, Copy, Debug, PartialEq, Eq)]
pub struct Event {
    /// 0 to 15.
    pub rank: u8,
    /// Who may send it, bit n for player n, where that is said.
    pub senders: Option<u8>,
}

/// A behaviour, or a row of them.
#[derive(Clone, Debug, PartialEq, Eq)]
pub struct Behaviour {
    /// What it does.
    pub body: Body,
    /// Who may see it, bit n for player n, where that is said.
    pub viewers: Option<u8>,
}

/// What a behaviour does.
#[derive(Clone, Debug, PartialEq, Eq)]
pub enum Body {
    /// It follows an expression.
    Passive(Expr),
    /// It changes on events.
    Active(Active),
    /// So many actives alike.
    Row(u8, Active),
}

/// A start value and what events do to it.
#[derive(Clone, Debug, PartialEq, Eq)]
pub struct Active {
    /// The value in a fresh round.
    pub start: i32,
    /// At most one for each event.
    pub handlers: Vec<Handler>,
}

/// What an event does.
#[derive(Clone, Debug, PartialEq, Eq)]
pub struct Handler {
    /// The event's number.
    pub event: usize,
    /// In the second phase.
    pub later: bool,
    /// The value taken.
    pub expr: Expr,
}

/// An expression. It nests at most 16 deep, so that calls which follow it go no deeper.
#[derive(Clone, Debug, PartialEq, Eq)]
pub enum Expr {
    /// A number.
    Constant(i32),
    /// A behaviour, by its number.
    Name(usize),
    /// A parameter, by its number.
    Param(usize),
    /// A function, 1 to the last, and its arguments.
    Apply(u8, Vec<Expr>),
}

/// `!`, `-` and `if` by 01's numbers.
pub(crate) const NOT: u8 = 3;
pub(crate) const MINUS: u8 = 5;
pub(crate) const IF: u8 = 14;

/// The functions in the order of their numbers: number, text, how many arguments it takes, and the level of a two-sided
/// one, 1 the tightest; 0 for another.
const FUNCTIONS: [(u8, &str, usize, u8); 14] = [
    (1, "||", 2, 6),
    (2, "&&", 2, 5),
    (NOT, "!", 1, 0),
    (4, "+", 2, 2),
    (MINUS, "-", 2, 2),
    (6, "*", 2, 1),
    (7, "/", 2, 1),
    (8, ">", 2, 3),
    (9, ">=", 2, 3),
    (10, "<", 2, 3),
    (11, "<=", 2, 3),
    (12, "==", 2, 4),
    (13, "!=", 2, 4),
    (IF, "if", 3, 0),
];

/// The last function.
pub(crate) const LAST: u8 = FUNCTIONS.len() as u8;

/// The two-sided functions: number, text and level.
pub(crate) fn every_two_sided() -> impl Iterator<Item = (u8, &'static str, u8)> {
    FUNCTIONS.into_iter().filter(|(.., level)| *level > 0).map(|(f, text, _, level)| (f, text, level))
}

/// A two-sided function's text and level.
pub(crate) fn two_sided(function: u8) -> Option<(&'static str, u8)> {
    every_two_sided().find(|(f, ..)| *f == function).map(|(_, text, level)| (text, level))
}

/// How many arguments a function takes.
pub(crate) fn arity(function: u8) -> usize {
    FUNCTIONS.iter().find(|(f, ..)| *f == function).map_or(0, |(_, _, arity, _)| *arity)
}

impl Behaviour {
    /// How many behaviour numbers it takes.
    pub fn count(&self) -> usize {
        match self.body {
            Body::Row(cells, _) => cells as usize,
            _ => 1,
        }
    }
}

impl Sheet {
    /// How many behaviours there are, a row's cells counted.
    pub fn count(&self) -> usize {
        self.behaviours.iter().map(Behaviour::count).sum()
    }
}
