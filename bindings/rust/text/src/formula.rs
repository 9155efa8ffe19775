//! A formula, read with a stack of its own: brackets may be as deep as a text is long.
//!
//! What waits for an operand stands on one stack, the operands read so far on another. How deep a formula nests is
//! judged as it is read: at fault is the first `!`, `if` or operator with which it must nest 17 deep. So at most 15
//! functions wait, and nothing that is built nests deeper, however long the text is.
use crate::fault::{Fault, Kind};
use crate::read::{Cell, Reader, Use};
use crate::token::{Token, Word};
use crate::tree::{two_sided, Expr, IF, MINUS, NOT};
use crate::NESTING;

/// What waits for the operand that is due, or for one that is complete.
enum Waiting {
    Bracket,
    /// An `if` with so many arguments behind it.
    Choice(u8),
    Not,
    /// A function and its level.
    TwoSided(u8, u8),
}

/// An expression and how deep it nests. A name in it is the number of its use until names are known.
struct Operand(Expr, usize);

struct Formula<'r, 't> {
    reader: &'r mut Reader<'t>,
    waiting: Vec<Waiting>,
    /// How many of them are functions: the brackets are not.
    functions: usize,
    operands: Vec<Operand>,
    /// The cells of the row whose handler this is.
    row: Option<u8>,
}

/// What follows a complete operand.
enum After {
    Operand,
    Operator,
    End,
}

/// The formula at the reader's place.
pub fn formula(reader: &mut Reader, row: Option<u8>) -> Result<Expr, Fault> {
    let mut f = Formula { reader, waiting: vec![], functions: 0, operands: vec![], row };
    loop {
        f.operand()?;
        loop {
            match f.after()? {
                After::Operand => break,
                After::Operator => {}
                After::End => return f.end(),
            }
        }
    }
}

impl Formula<'_, '_> {
    /// Up to a primary.
    fn operand(&mut self) -> Result<(), Fault> {
        loop {
            match self.reader.token {
                Token::Not => self.wait(Waiting::Not, 1)?,
                Token::Mark(b'(') => self.waiting.push(Waiting::Bracket),
                Token::Word(Word::If) => {
                    self.wait(Waiting::Choice(0), 1)?;
                    self.reader.next();
                    if self.reader.token != Token::Mark(b'(') {
                        return Err(self.reader.outside("`(` is due after `if`"));
                    }
                }
                _ => return self.primary(),
            }
            self.reader.next();
        }
    }

    /// The function at the reader's place waits for arguments, the deepest of which nests so deep at least, inside
    /// those that wait already.
    fn wait(&mut self, function: Waiting, nesting: usize) -> Result<(), Fault> {
        if self.functions + 1 + nesting > NESTING {
            let why = format!("with this the expression nests over {NESTING} deep");
            return Err(Fault::new(Kind::TooDeep, self.reader.place, why));
        }
        self.waiting.push(function);
        self.functions += 1;
        Ok(())
    }

    fn primary(&mut self) -> Result<(), Fault> {
        let expr = match self.reader.token {
            Token::TwoSided(MINUS) | Token::Number(_) => Expr::Constant(self.reader.value()?),
            Token::Name(name) => self.name(name)?,
            _ => return Err(self.reader.outside("a number, a name, `(`, `!` or `if` is due")),
        };
        self.operands.push(Operand(expr, 1));
        Ok(())
    }

    /// A name, perhaps with a cell.
    fn name(&mut self, name: &str) -> Result<Expr, Fault> {
        let mut found = Use { name: name.to_string(), place: self.reader.place, cell: None, row: self.row };
        self.reader.next();
        if self.reader.token == Token::Mark(b'[') {
            let bracket = self.reader.place;
            self.reader.next();
            found.cell = Some(Cell { bracket, number: self.reader.number()? });
            self.reader.mark(b']')?;
        }
        self.reader.uses.push(found);
        Ok(Expr::Name(self.reader.uses.len() - 1))
    }

    /// What the token after an operand does.
    fn after(&mut self) -> Result<After, Fault> {
        match self.reader.token {
            Token::TwoSided(function) => {
                let (_, level) = two_sided(function).unwrap_or(("", 0));
                self.close(level);
                let left = self.operands.last().map_or(1, |o| o.1);
                self.wait(Waiting::TwoSided(function, level), left)?;
                self.reader.next();
                Ok(After::Operand)
            }
            Token::Mark(b',') => self.comma(),
            Token::Mark(b')') => self.bracket(),
            _ => self.done(),
        }
    }

    fn comma(&mut self) -> Result<After, Fault> {
        self.close(u8::MAX);
        match self.waiting.last_mut() {
            Some(Waiting::Choice(done @ 0..=1)) => *done += 1,
            _ => return self.done(),
        }
        self.reader.next();
        Ok(After::Operand)
    }

    fn bracket(&mut self) -> Result<After, Fault> {
        self.close(u8::MAX);
        match self.waiting.last() {
            Some(Waiting::Bracket) => drop(self.waiting.pop()),
            Some(Waiting::Choice(2)) => self.apply(IF, 3),
            _ => return self.done(),
        }
        self.reader.next();
        Ok(After::Operator)
    }

    /// The formula is over, unless a bracket is open: then the token cannot follow.
    fn done(&mut self) -> Result<After, Fault> {
        self.close(u8::MAX);
        match self.waiting.last() {
            None => Ok(After::End),
            Some(Waiting::Choice(0..=1)) => Err(self.reader.outside("an operator or `,` is due")),
            Some(_) => Err(self.reader.outside("an operator or `)` is due")),
        }
    }

    fn end(&mut self) -> Result<Expr, Fault> {
        let last = self.operands.pop();
        last.map(|o| o.0).ok_or_else(|| self.reader.outside("a formula is due"))
    }

    /// Applies what waits and binds at least as tightly as a level: all two-sided operators group to the left.
    fn close(&mut self, level: u8) {
        loop {
            match self.waiting.last() {
                Some(Waiting::Not) => self.apply(NOT, 1),
                Some(Waiting::TwoSided(function, own)) if *own <= level => self.apply(*function, 2),
                _ => return,
            }
        }
    }

    /// The last function that waits takes its arguments.
    fn apply(&mut self, function: u8, arguments: usize) {
        self.waiting.pop();
        self.functions -= 1;
        let from = self.operands.len().saturating_sub(arguments);
        let taken: Vec<Operand> = self.operands.drain(from..).collect();
        let nesting = 1 + taken.iter().map(|o| o.1).max().unwrap_or(0);
        self.operands.push(Operand(Expr::Apply(function, taken.into_iter().map(|o| o.0).collect()), nesting));
    }
}
