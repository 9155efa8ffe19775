//! The functions of the language: number, text, arity and level of each, told here alone. What they mean is in engine.rs.

pub const OR: u8 = 1;
pub const AND: u8 = 2;
pub const NOT: u8 = 3;
pub const ADD: u8 = 4;
pub const SUBTRACT: u8 = 5;
pub const MULTIPLY: u8 = 6;
pub const DIVIDE: u8 = 7;
pub const ABOVE: u8 = 8;
pub const AT_LEAST: u8 = 9;
pub const BELOW: u8 = 10;
pub const AT_MOST: u8 = 11;
pub const EQUAL: u8 = 12;
pub const UNEQUAL: u8 = 13;
pub const IF: u8 = 14;

pub struct Function {
    pub number: u8,
    pub text: &'static str,
    pub arity: usize,
    /// Of a two-sided operator, 1 for the tightest; 0 for another function.
    pub level: usize,
}

const fn function(number: u8, text: &'static str, arity: usize, level: usize) -> Function {
    Function { number, text, arity, level }
}

pub const FUNCTIONS: &[Function] = &[
    function(OR, "||", 2, 6),
    function(AND, "&&", 2, 5),
    function(NOT, "!", 1, 0),
    function(ADD, "+", 2, 2),
    function(SUBTRACT, "-", 2, 2),
    function(MULTIPLY, "*", 2, 1),
    function(DIVIDE, "/", 2, 1),
    function(ABOVE, ">", 2, 3),
    function(AT_LEAST, ">=", 2, 3),
    function(BELOW, "<", 2, 3),
    function(AT_MOST, "<=", 2, 3),
    function(EQUAL, "==", 2, 4),
    function(UNEQUAL, "!=", 2, 4),
    function(IF, "if", 3, 0),
];

pub const LAST: u8 = FUNCTIONS.len() as u8;

/// The level of the loosest operators.
pub const LOOSEST: usize = 6;

/// A function by its number, 1 to LAST.
pub fn of(f: u8) -> &'static Function {
    let found = &FUNCTIONS[f as usize - 1];
    assert_eq!(found.number, f, "functions stand in the order of their numbers");
    found
}

pub fn arity(f: u8) -> usize {
    of(f).arity
}

/// The operators of a level, those of two bytes first.
pub fn operators(level: usize) -> impl Iterator<Item = &'static Function> {
    let of_length = move |n| FUNCTIONS.iter().filter(move |f| f.level == level && f.text.len() == n);
    of_length(2).chain(of_length(1))
}
