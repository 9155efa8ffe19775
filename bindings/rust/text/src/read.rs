//! A text to a sheet: one pass over the declarations, then the names in formulas, then the bytes.
use crate::bytes::encode;
use crate::fault::{perhaps, Fault, Kind, Place};
use crate::formula::formula;
use crate::token::{end_of, Scanner, Token, Word};
use crate::tree::{Active, Behaviour, Body, Event, Expr, Handler, Sheet, MINUS};
use crate::{BEHAVIOURS, CELLS, EVENTS, PARAMS, PLAYER, RANK, SHEET, TEXT};

/// The largest number, and the largest after a `-` that makes a constant.
const LARGEST: u64 = i32::MAX as u64;
const LARGEST_NEGATED: u64 = LARGEST + 1;

/// A parameter of a text.
#[derive(Clone, Debug, PartialEq, Eq)]
pub struct Param {
    /// As declared.
    pub name: String,
    /// Where.
    pub place: Place,
    /// For the tools that lend parameters; it is not in the sheet.
    pub default: Option<i32>,
}

/// An event, a behaviour or a row of a text.
#[derive(Clone, Debug, PartialEq, Eq)]
pub struct Declared {
    /// As declared.
    pub name: String,
    /// Where.
    pub place: Place,
    /// Its number, a row's being that of its first cell.
    pub first: usize,
    /// A row's cells.
    pub cells: Option<usize>,
}

impl Declared {
    /// How many numbers it takes.
    pub fn count(&self) -> usize {
        self.cells.unwrap_or(1)
    }
}

/// What a text says.
#[derive(Clone, Debug, Default, PartialEq, Eq)]
pub struct Assembled {
    /// The bytes of the sheet.
    pub sheet: Vec<u8>,
    /// By number.
    pub params: Vec<Param>,
    /// By number.
    pub events: Vec<Declared>,
    /// As declared, a row being one.
    pub behaviours: Vec<Declared>,
}

/// A name in a formula.
pub(crate) struct Use {
    pub name: String,
    pub place: Place,
    pub cell: Option<Cell>,
    /// The cells of the row in whose handler it stands.
    pub row: Option<u8>,
}

/// The `[..]` behind a name.
pub(crate) struct Cell {
    pub bracket: Place,
    pub number: u64,
}

/// The tokens, the one to be read next at the front.
pub(crate) struct Reader<'t> {
    scanner: Scanner<'t>,
    pub token: Token<'t>,
    pub place: Place,
    pub uses: Vec<Use>,
    sheet: Sheet,
    params: Vec<Param>,
    events: Vec<Declared>,
    behaviours: Vec<Declared>,
}

/// A text's sheet and names, or its first fault.
pub fn assemble(text: &[u8]) -> Result<Assembled, Fault> {
    assemble_within(text, SHEET)
}

/// The same, its bytes at the start of a buffer, whose other bytes stay; their number is answered. After a fault all
/// bytes of the buffer are as they were.
pub fn assemble_into(text: &[u8], buffer: &mut [u8]) -> Result<usize, Fault> {
    let read = assemble_within(text, buffer.len())?;
    buffer[..read.sheet.len()].copy_from_slice(&read.sheet);
    Ok(read.sheet.len())
}

fn assemble_within(text: &[u8], room: usize) -> Result<Assembled, Fault> {
    if text.len() > TEXT {
        let why = format!("{} bytes, and a text has at most {TEXT}", text.len());
        return Err(Fault::new(Kind::LongText, end_of(&text[..TEXT]), why));
    }
    let mut reader = Reader::new(text);
    reader.sheet()?;
    let meant = reader.meant()?;
    let mut sheet = std::mem::take(&mut reader.sheet);
    sheet.behaviours.iter_mut().for_each(|b| settle_behaviour(b, &meant));
    let sheet = encode(&sheet);
    if sheet.len() > SHEET {
        let why = format!("{} bytes, and a sheet has at most {SHEET}", sheet.len());
        return Err(Fault::new(Kind::LongSheet, end_of(text), why));
    }
    if sheet.len() > room {
        let why = format!("the sheet has {} bytes, and the buffer {room}", sheet.len());
        return Err(Fault::new(Kind::ShortBuffer, end_of(text), why));
    }
    let Reader { params, events, behaviours, .. } = reader;
    Ok(Assembled { sheet, params, events, behaviours })
}

/// Puts what names mean in the place of their uses.
fn settle_behaviour(behaviour: &mut Behaviour, meant: &[Expr]) {
    match &mut behaviour.body {
        Body::Passive(expr) => settle(expr, meant),
        Body::Active(active) | Body::Row(_, active) => {
            active.handlers.iter_mut().for_each(|h| settle(&mut h.expr, meant));
        }
    }
}

fn settle(expr: &mut Expr, meant: &[Expr]) {
    match expr {
        Expr::Name(n) => *expr = meant[*n].clone(),
        Expr::Apply(_, arguments) => arguments.iter_mut().for_each(|a| settle(a, meant)),
        Expr::Constant(_) | Expr::Param(_) => {}
    }
}

impl<'t> Reader<'t> {
    fn new(text: &'t [u8]) -> Reader<'t> {
        let mut scanner = Scanner::new(text);
        let (token, place) = scanner.next();
        let sheet = Sheet::default();
        Reader { scanner, token, place, uses: vec![], sheet, params: vec![], events: vec![], behaviours: vec![] }
    }

    // ---- tokens

    /// Goes on by one token.
    pub fn next(&mut self) {
        (self.token, self.place) = self.scanner.next();
    }

    /// A fault at the token that is next.
    pub fn fault(&self, kind: Kind, why: impl Into<String>) -> Fault {
        Fault::new(kind, self.place, why)
    }

    /// The next token cannot follow.
    pub fn outside(&self, due: &str) -> Fault {
        self.fault(Kind::Outside, format!("{due}, not {}", self.token))
    }

    fn take(&mut self, word: Word) -> bool {
        let there = self.token == Token::Word(word);
        if there {
            self.next();
        }
        there
    }

    fn word(&mut self, word: Word, due: &str) -> Result<(), Fault> {
        if self.take(word) {
            return Ok(());
        }
        Err(self.outside(due))
    }

    /// A bracket, `:` or `=`.
    pub fn mark(&mut self, mark: u8) -> Result<(), Fault> {
        if self.token != Token::Mark(mark) {
            return Err(self.outside(&format!("`{}` is due", char::from(mark))));
        }
        self.next();
        Ok(())
    }

    fn number_up_to(&mut self, most: u64) -> Result<u64, Fault> {
        let Token::Number(number) = self.token else { return Err(self.outside("a number is due")) };
        if number > most {
            return Err(self.fault(Kind::LargeNumber, format!("a number here is at most {most}")));
        }
        self.next();
        Ok(number)
    }

    pub fn number(&mut self) -> Result<u64, Fault> {
        self.number_up_to(LARGEST)
    }

    /// A number within a scale; one that is too large for any number is that first.
    fn on_scale(&mut self, scale: std::ops::RangeInclusive<u64>, what: &str) -> Result<u64, Fault> {
        let place = self.place;
        let number = self.number()?;
        if !scale.contains(&number) {
            let why = format!("{what} is {} to {}", scale.start(), scale.end());
            return Err(Fault::new(Kind::OffTheScale, place, why));
        }
        Ok(number)
    }

    /// A number, perhaps with a sign.
    pub fn value(&mut self) -> Result<i32, Fault> {
        if self.token != Token::TwoSided(MINUS) {
            return Ok(self.number()? as i32);
        }
        self.next();
        let number = self.number_up_to(LARGEST_NEGATED)?;
        Ok((number as u32).wrapping_neg() as i32)
    }

    // ---- declarations

    fn sheet(&mut self) -> Result<(), Fault> {
        while self.token == Token::Word(Word::Param) {
            self.param()?;
        }
        while self.token == Token::Word(Word::Event) {
            self.event()?;
        }
        while self.token != Token::End {
            self.behaviour()?;
        }
        Ok(())
    }

    /// The first word of a declaration, where there is room for one more.
    fn opened(&mut self, has: usize, most: usize, many: &str) -> Result<(), Fault> {
        if has == most {
            return Err(self.fault(Kind::Crowded, format!("a sheet has at most {most} {many}")));
        }
        self.next();
        Ok(())
    }

    /// A name that is declared here.
    fn declared(&mut self, known: Option<Place>) -> Result<(String, Place), Fault> {
        let Token::Name(name) = self.token else { return Err(self.outside("a name is due")) };
        if let Some(first) = known {
            let why = format!("`{name}` is declared in line {} already", first.line);
            return Err(self.fault(Kind::Doubled, why));
        }
        let place = self.place;
        self.next();
        Ok((name.to_string(), place))
    }

    /// Where the name at the front is declared, as a parameter or a behaviour.
    fn known(&self) -> Option<Place> {
        let Token::Name(name) = self.token else { return None };
        let param = self.params.iter().find(|p| p.name == name).map(|p| p.place);
        param.or_else(|| self.behaviours.iter().find(|b| b.name == name).map(|b| b.place))
    }

    fn known_event(&self) -> Option<usize> {
        let Token::Name(name) = self.token else { return None };
        self.events.iter().position(|e| e.name == name)
    }

    fn param(&mut self) -> Result<(), Fault> {
        self.opened(self.params.len(), PARAMS, "parameters")?;
        let (name, place) = self.declared(self.known())?;
        let mut default = None;
        if self.token == Token::Mark(b'=') {
            self.next();
            default = Some(self.value()?);
        }
        self.params.push(Param { name, place, default });
        Ok(())
    }

    fn event(&mut self) -> Result<(), Fault> {
        self.opened(self.events.len(), EVENTS, "events")?;
        let (name, place) = self.declared(self.known_event().map(|e| self.events[e].place))?;
        self.events.push(Declared { name, place, first: self.events.len(), cells: None });
        self.word(Word::Rank, "`rank` is due")?;
        let rank = self.on_scale(0..=RANK, "a rank")? as u8;
        let senders = if self.take(Word::From) { Some(self.players()?) } else { None };
        self.sheet.events.push(Event { rank, senders });
        Ok(())
    }

    /// Bits of the players named.
    fn players(&mut self) -> Result<u8, Fault> {
        if self.take(Word::Nobody) {
            return Ok(0);
        }
        if !matches!(self.token, Token::Number(_)) {
            return Err(self.outside("`nobody` or a player's number is due"));
        }
        let mut bits = 0;
        while let Token::Number(_) = self.token {
            bits |= 1 << self.on_scale(0..=PLAYER, "a player")?;
        }
        Ok(bits)
    }

    fn viewers(&mut self) -> Result<Option<u8>, Fault> {
        if !self.take(Word::Seen) {
            return Ok(None);
        }
        self.word(Word::By, "`by` is due after `seen`")?;
        self.players().map(Some)
    }

    fn behaviour(&mut self) -> Result<(), Fault> {
        let first = self.behaviours.last().map_or(0, |b| b.first + b.count());
        let kind = self.token;
        let known = matches!(kind, Token::Word(Word::Passive | Word::Active | Word::Row));
        if !known {
            return Err(self.outside(self.due()));
        }
        self.opened(first, BEHAVIOURS, "behaviours")?;
        let (name, place) = self.declared(self.known())?;
        self.behaviours.push(Declared { name, place, first, cells: None });
        let cells = if kind == Token::Word(Word::Row) { Some(self.cells(first)?) } else { None };
        self.mark(b'=')?;
        if kind == Token::Word(Word::Passive) {
            let expr = formula(self, None)?;
            let viewers = self.viewers()?;
            self.sheet.behaviours.push(Behaviour { body: Body::Passive(expr), viewers });
            return Ok(());
        }
        let start = self.value()?;
        let viewers = self.viewers()?;
        let active = Active { start, handlers: self.handlers(cells)? };
        let body = match cells {
            Some(count) => Body::Row(count, active),
            None => Body::Active(active),
        };
        self.sheet.behaviours.push(Behaviour { body, viewers });
        Ok(())
    }

    /// What may stand where a declaration begins, for a message.
    fn due(&self) -> &'static str {
        match (self.behaviours.is_empty(), self.events.is_empty()) {
            (false, _) => "`passive`, `active` or `row` is due, or what goes on the declaration before",
            (true, false) => "`event`, `passive`, `active` or `row` is due",
            (true, true) => "`param`, `event`, `passive`, `active` or `row` is due",
        }
    }

    /// A row's cell count: its scale, then room for all cells.
    fn cells(&mut self, first: usize) -> Result<u8, Fault> {
        self.mark(b'[')?;
        let place = self.place;
        let count = self.on_scale(CELLS, "a row's cell count")? as u8;
        if first + count as usize > BEHAVIOURS {
            let why = format!("a sheet has at most {BEHAVIOURS} behaviours, a row's cells counted");
            return Err(Fault::new(Kind::Crowded, place, why));
        }
        if let Some(own) = self.behaviours.last_mut() {
            own.cells = Some(count as usize);
        }
        self.mark(b']')?;
        Ok(count)
    }

    fn handlers(&mut self, row: Option<u8>) -> Result<Vec<Handler>, Fault> {
        let mut handlers: Vec<Handler> = vec![];
        while self.take(Word::On) {
            let event = self.handled(&handlers)?;
            let later = self.take(Word::Later);
            self.mark(b':')?;
            handlers.push(Handler { event, later, expr: formula(self, row)? });
        }
        Ok(handlers)
    }

    /// The event of a handler.
    fn handled(&mut self, so_far: &[Handler]) -> Result<usize, Fault> {
        let Token::Name(name) = self.token else { return Err(self.outside("an event's name is due")) };
        let Some(event) = self.known_event() else {
            let near = perhaps(name, self.events.iter().map(|e| e.name.as_str()));
            return Err(self.fault(Kind::UnknownName, format!("no event `{name}` is declared{near}")));
        };
        if so_far.iter().any(|h| h.event == event) {
            let why = format!("this behaviour has a handler for `{name}` already");
            return Err(self.fault(Kind::SecondHandler, why));
        }
        self.next();
        Ok(event)
    }

    // ---- names in formulas

    /// What each use means, from left to right.
    fn meant(&self) -> Result<Vec<Expr>, Fault> {
        self.uses.iter().map(|u| self.meaning(u)).collect()
    }

    fn meaning(&self, used: &Use) -> Result<Expr, Fault> {
        let name = &used.name;
        if let Some(param) = self.params.iter().position(|p| p.name == *name) {
            if let Some(cell) = &used.cell {
                let why = format!("`{name}` is a parameter and has no cells");
                return Err(Fault::new(Kind::NoCell, cell.bracket, why));
            }
            return Ok(Expr::Param(param));
        }
        let Some(behaviour) = self.behaviours.iter().find(|b| b.name == *name) else {
            let params = self.params.iter().map(|p| p.name.as_str());
            let near = perhaps(name, params.chain(self.behaviours.iter().map(|b| b.name.as_str())));
            let why = format!("no parameter and no behaviour `{name}` is declared{near}");
            return Err(Fault::new(Kind::UnknownName, used.place, why));
        };
        match &used.cell {
            None => Ok(Expr::Name(behaviour.first)),
            Some(cell) => cell_of(behaviour, cell, used.row),
        }
    }
}

/// A cell of a row. Cell 0 cannot be said in a handler of a row with the same count: there its number means the cell
/// at the same place.
fn cell_of(row: &Declared, cell: &Cell, within: Option<u8>) -> Result<Expr, Fault> {
    let name = &row.name;
    let Some(cells) = row.cells else {
        return Err(Fault::new(Kind::NoCell, cell.bracket, format!("`{name}` is no row and has no cells")));
    };
    if cell.number >= cells as u64 {
        let why = format!("the cells of `{name}` are 0 to {}", cells - 1);
        return Err(Fault::new(Kind::NoCell, cell.bracket, why));
    }
    if cell.number == 0 && within.map(usize::from) == Some(cells) {
        let why =
            format!("in a row of {cells} cells `{name}` means the cell at the same place, and cell 0 cannot be said");
        return Err(Fault::new(Kind::NoCell, cell.bracket, why));
    }
    Ok(Expr::Name(row.first + cell.number as usize))
}
