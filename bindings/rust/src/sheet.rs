//! Sheets, their parameters, and the tables that they are compiled to.
use crate::raw;
use crate::{Behaviour, Event, Fault, Player, Refusal, Round};
use std::fmt;
use std::sync::Arc;

/// Bytes of a table.
pub const TABLE: usize = 34_816;
/// Bytes of a sheet, at most.
pub const SHEET: usize = 8_192;
/// Bytes of a sheet's text, at most.
pub const SHEET_TEXT: usize = 65_536;
/// Bytes of parameters.
pub const PARAMS: usize = 32;
/// Bytes of a formula's field, at most.
const FIELD: usize = 7_168;
/// Behaviours of a circle, at most.
const CIRCLE: usize = 64;
/// The number that circle has for no event.
const NO_EVENT: u64 = 255;

/// A sheet: any bytes. [`Sheet::compile`] tells whether they are one.
///
/// ```
/// use poqashem::{Refusal, Sheet};
/// assert!(Sheet::new([]).compile(None).is_ok(), "a rest day: no events and no behaviours");
/// assert_eq!(Sheet::new([9, 0, 0]).compile(None).unwrap_err(), Refusal::WrongTag);
/// ```
#[derive(Clone, Debug, Default, PartialEq, Eq, Hash)]
pub struct Sheet(Vec<u8>);

/// The eight values of a sheet's parameters.
///
/// ```
/// use poqashem::Params;
/// let params = Params::new([5, -1, 0, 0, 0, 0, 0, 0]);
/// assert_eq!(params.values()[..2], [5, -1]);
/// assert_eq!(params.bytes()[..8], [0, 0, 0, 5, 255, 255, 255, 255]);
/// ```
#[derive(Clone, Copy, Debug, Default, PartialEq, Eq, Hash)]
pub struct Params([u8; PARAMS]);

impl Params {
    /// Parameter n of the sheet stands for the n-th.
    pub fn new(values: [i32; 8]) -> Params {
        let mut bytes = [0; PARAMS];
        for (own, value) in bytes.chunks_exact_mut(4).zip(values) {
            own.copy_from_slice(&value.to_be_bytes());
        }
        Params(bytes)
    }

    /// Eight big-endian signed numbers of 32 bits.
    pub fn from_bytes(bytes: [u8; PARAMS]) -> Params {
        Params(bytes)
    }

    /// As they are lent.
    pub fn bytes(&self) -> &[u8; PARAMS] {
        &self.0
    }

    /// The numbers.
    pub fn values(&self) -> [i32; 8] {
        std::array::from_fn(|n| i32::from_be_bytes(std::array::from_fn(|k| self.0[4 * n + k])))
    }
}

/// The bytes lent for parameters: 32, or none.
pub(crate) fn lent(params: Option<&Params>) -> &[u8] {
    params.map_or(&[], |p| &p.0)
}

/// Why a sheet is refused by [`Refusal::Circle`]: behaviours that each depend on the next, the last on the first.
#[derive(Clone, Debug, PartialEq, Eq)]
pub struct Circle {
    /// The event that it arises under, or none.
    pub event: Option<Event>,
    /// No circle of fewer behaviours exists, under an event or under none.
    pub behaviours: Vec<Behaviour>,
}

/// Two events of unequal rank that are not independent: two phones that take them in alike may end apart.
#[derive(Clone, Copy, Debug, PartialEq, Eq)]
pub struct Clash {
    /// The lower of the two numbers.
    pub first: Event,
    /// The higher.
    pub second: Event,
    /// One of them writes it, and the other reads or writes it.
    pub behaviour: Behaviour,
}

impl Clash {
    /// Of a packed answer: none for 0, and 29 with its parts.
    pub(crate) fn of(answer: u64) -> Result<Option<Clash>, Refusal> {
        let byte = |k: u32| (answer >> (8 * k) & 0xFF) as u32;
        match byte(0) {
            0 => Ok(None),
            29 => Ok(Some(Clash { first: Event(byte(1)), second: Event(byte(2)), behaviour: Behaviour(byte(3)) })),
            _ => Err(Refusal::of(answer)),
        }
    }
}

/// A behaviour that a player sees and that depends on one hidden from this player.
#[derive(Clone, Copy, Debug, PartialEq, Eq)]
pub struct Leak {
    /// The player sees it.
    pub seen: Behaviour,
    /// It is hidden from the player, and the seen one names it.
    pub hidden: Behaviour,
}

impl Sheet {
    /// A sheet of these bytes, whatever they are.
    pub fn new(bytes: impl Into<Vec<u8>>) -> Sheet {
        Sheet(bytes.into())
    }

    /// Its bytes.
    pub fn bytes(&self) -> &[u8] {
        &self.0
    }

    /// The sheet that a text means, as its setter writes it: `docs/SHEETS.md`. [`Sheet::compile`] then refuses it by 12,
    /// 13 and 20 alone. Turned down is a text with its first fault, by kind, line and column.
    ///
    /// ```
    /// use poqashem::{Behaviour, Event, FaultKind, Player, Sheet, Step};
    /// let sheet = Sheet::assemble("event hit rank 1\nactive score = 0\n  on hit: score + 10\n").unwrap();
    /// let mut round = sheet.compile(None)?.start()?;
    /// round.arrive(Event(0), Player::HOST)?;
    /// while round.step()? != Step::Idle {}
    /// assert_eq!(round.board(Behaviour(0), Player::HOST), Ok(10));
    ///
    /// let fault = Sheet::assemble("event hit rank 1\nactive score = 0\n  on hit: points + 10\n").unwrap_err();
    /// assert_eq!((fault.kind, fault.line, fault.column), (FaultKind::UnknownName, 3, 11));
    /// # Ok::<(), poqashem::Refusal>(())
    /// ```
    pub fn assemble(text: impl AsRef<[u8]>) -> Result<Sheet, Fault> {
        let mut buffer = vec![0; SHEET];
        let answer = raw::assemble(text.as_ref(), &mut buffer);
        if let Some(fault) = Fault::of(answer) {
            return Err(fault);
        }
        buffer.truncate(answer as u32 as usize);
        Ok(Sheet(buffer))
    }

    /// A text of a sheet that compile accepts, which [`Sheet::assemble`] turns into the very bytes again. The names are
    /// invented, since a sheet has none. Refused by compile's number, parameters lent.
    ///
    /// ```
    /// use poqashem::{Refusal, Sheet};
    /// let seven = Sheet::new([2, 0, 7, 0x10, 0, 4, 0, 0, 0, 7]);
    /// assert_eq!(seven.describe()?, "passive b0=7\n");
    /// assert_eq!(Sheet::assemble(seven.describe()?), Ok(seven));
    /// assert_eq!(Sheet::new([2, 0]).describe(), Err(Refusal::Torn));
    /// # Ok::<(), Refusal>(())
    /// ```
    pub fn describe(&self) -> Result<String, Refusal> {
        let mut buffer = vec![0; SHEET_TEXT];
        let length = Refusal::word_of(raw::describe(&self.0, &mut buffer))?;
        buffer.truncate(length as usize);
        Ok(buffer.into_iter().map(char::from).collect())
    }

    /// Compiles it. Refused by 3 to 13 and 20.
    ///
    /// ```
    /// use poqashem::{Params, Refusal, Sheet};
    /// let passive = Sheet::new([2, 0, 4, 0x13, 0, 1, 0]); // b0 is parameter 0
    /// assert_eq!(passive.compile(None).unwrap_err(), Refusal::NoParameters);
    /// let table = passive.compile(Some(&Params::new([7, 0, 0, 0, 0, 0, 0, 0])))?;
    /// # let round = table.start()?;
    /// # assert_eq!(round.board(poqashem::Behaviour(0), poqashem::Player::HOST), Ok(7));
    /// # Ok::<(), Refusal>(())
    /// ```
    pub fn compile(&self, params: Option<&Params>) -> Result<Table, Refusal> {
        let mut table = zeroed::<TABLE>();
        Refusal::check(raw::compile(&self.0, lent(params), &mut table[..]))?;
        Ok(Table(Arc::from(table)))
    }

    /// A shortest circle of a sheet that compile refuses by 12, and none of one that it accepts; for any other sheet,
    /// compile's refusal. For a setter's desk: on a full sheet it may take a good part of a second.
    ///
    /// ```
    /// use poqashem::{Behaviour, Circle, Sheet};
    /// let b0_is_b1 = [2, 0, 4, 0x11, 0, 1, 1];
    /// let b1_is_b0 = [2, 0, 4, 0x11, 0, 1, 0];
    /// let found = Sheet::new([b0_is_b1, b1_is_b0].concat()).circle(None)?;
    /// let Some(Circle { event: None, behaviours }) = found else { panic!("a circle under no event") };
    /// assert_eq!(behaviours.len(), 2);
    /// # Ok::<(), poqashem::Refusal>(())
    /// ```
    pub fn circle(&self, params: Option<&Params>) -> Result<Option<Circle>, Refusal> {
        let mut list = [0; CIRCLE];
        let answer = raw::circle(&self.0, lent(params), &mut list);
        if answer == 0 {
            return Ok(None);
        }
        if answer & 0xFF != Refusal::Circle.number() as u64 {
            return Err(Refusal::of(answer));
        }
        let event = Some(answer >> 8 & 0xFF).filter(|e| *e != NO_EVENT).map(|e| Event(e as u32));
        let behaviours = list[..(answer >> 16) as usize].iter().map(|b| Behaviour(*b as u32)).collect();
        Ok(Some(Circle { event, behaviours }))
    }

    /// One sheet from two: events are shared by number, behaviours of the second follow those of the first. Compile it
    /// with the same parameters. Refused by compile's number, the first sheet's before the second's, then 26, 3, 7, 13.
    ///
    /// ```
    /// use poqashem::{Behaviour, Player, Sheet};
    /// let seven = Sheet::new([2, 0, 7, 0x10, 0, 4, 0, 0, 0, 7]); // b0 is 7
    /// let both = seven.join(&seven, None)?;
    /// let round = both.compile(None)?.start()?;
    /// assert_eq!(round.board(Behaviour(1), Player::HOST), Ok(7));
    /// # Ok::<(), poqashem::Refusal>(())
    /// ```
    pub fn join(&self, second: &Sheet, params: Option<&Params>) -> Result<Sheet, Refusal> {
        let mut buffer = vec![0; SHEET];
        let length = Refusal::word_of(raw::join(&self.0, &second.0, lent(params), &mut buffer))?;
        buffer.truncate(length as usize);
        Ok(Sheet(buffer))
    }

    /// Whether two phones that take in the same events in the same order may end with unequal boards: none where every
    /// two declared events of unequal rank are independent, so that they do not; else two that are not, a warning that
    /// they may, which does not state that they do. Refused by compile's number.
    ///
    /// ```
    /// use poqashem::{Behaviour, Clash, Event, Sheet};
    /// let both_write_b0 = |rank: u8| {
    ///     let sheet = [
    ///         &[1, 0, 1, 1, 1, 0, 1, rank][..],                 // event 0 of rank 1, event 1
    ///         &[3, 0, 31, 4, 0, 4, 0, 0, 0, 0],                 // b0 starts at 0
    ///         &[5, 0, 9, 0, 0, 0x10, 0, 4, 0, 0, 0, 1],         // on event 0 it is 1
    ///         &[5, 0, 9, 1, 0, 0x10, 0, 4, 0, 0, 0, 2],         // on event 1 it is 2
    ///     ];
    ///     Sheet::new(sheet.concat())
    /// };
    /// let clash = Clash { first: Event(0), second: Event(1), behaviour: Behaviour(0) };
    /// assert_eq!(both_write_b0(2).agree(None)?, Some(clash));
    /// assert_eq!(both_write_b0(1).agree(None)?, None, "of one rank they commit as they came");
    /// # Ok::<(), poqashem::Refusal>(())
    /// ```
    pub fn agree(&self, params: Option<&Params>) -> Result<Option<Clash>, Refusal> {
        Clash::of(raw::agree(&self.0, lent(params)))
    }

    /// Whether a hidden start value may leak to a player: none where no behaviour that this player sees depends on a
    /// hidden one, so that it does not; else a seen one and a hidden one that it names, a warning. Moves are not
    /// hidden: a step tells which event was committed and who sent it. Refused by compile's number, then 24.
    ///
    /// ```
    /// use poqashem::{Behaviour, Leak, Player, Sheet};
    /// let sheet = Sheet::new([
    ///     2, 0, 4, 0x11, 0, 1, 1,                            // b0 is b1
    ///     3, 0, 11, 4, 0, 4, 0, 0, 0, 7, 8, 0, 1, 0b11111101, // b1, which player 1 does not see
    /// ]);
    /// let leak = Leak { seen: Behaviour(0), hidden: Behaviour(1) };
    /// assert_eq!(sheet.leak(None, Player(1))?, Some(leak));
    /// assert_eq!(sheet.leak(None, Player(2))?, None);
    /// # Ok::<(), poqashem::Refusal>(())
    /// ```
    pub fn leak(&self, params: Option<&Params>, player: Player) -> Result<Option<Leak>, Refusal> {
        let answer = raw::leak(&self.0, lent(params), player.0);
        let byte = |k: u32| (answer >> (8 * k) & 0xFF) as u32;
        match byte(0) {
            0 => Ok(None),
            30 => Ok(Some(Leak { seen: Behaviour(byte(1)), hidden: Behaviour(byte(2)) })),
            _ => Err(Refusal::of(answer)),
        }
    }
}

impl From<Vec<u8>> for Sheet {
    fn from(bytes: Vec<u8>) -> Sheet {
        Sheet(bytes)
    }
}

impl From<&[u8]> for Sheet {
    fn from(bytes: &[u8]) -> Sheet {
        Sheet(bytes.to_vec())
    }
}

impl AsRef<[u8]> for Sheet {
    fn as_ref(&self) -> &[u8] {
        &self.0
    }
}

/// A formula's text becomes one expression field. Refused by 21, 22, 9. `docs/BYTES.md` has the grammar. The reader
/// calls itself for brackets; a thread that reads texts of strangers needs the stack that `docs/HOST.md` names.
///
/// ```
/// use poqashem::{formula, Refusal};
/// assert_eq!(formula("b1 + 2")?, [0x12, 0, 12, 4, 0x11, 0, 1, 1, 0x10, 0, 4, 0, 0, 0, 2]);
/// assert_eq!(formula("b1 +"), Err(Refusal::NoFormula));
/// # Ok::<(), Refusal>(())
/// ```
pub fn formula(text: impl AsRef<[u8]>) -> Result<Vec<u8>, Refusal> {
    let mut buffer = vec![0; FIELD];
    let length = Refusal::word_of(raw::formula(text.as_ref(), &mut buffer))?;
    buffer.truncate(length as usize);
    Ok(buffer)
}

/// What a sheet is compiled to. It never changes; a clone shares its bytes, and one table may serve many rounds, on any
/// number of threads.
#[derive(Clone, PartialEq, Eq, Hash)]
pub struct Table(Arc<[u8; TABLE]>);

impl Table {
    /// A fresh round of its sheet. A table that [`Sheet::compile`] made is never refused; others may be, by 14.
    pub fn start(&self) -> Result<Round, Refusal> {
        Round::start(self)
    }

    /// A table that was saved, made by an engine of the same layout. Any bytes will do: a table that is not one is
    /// refused by 14, call by call.
    ///
    /// ```
    /// use poqashem::{Refusal, Table, TABLE};
    /// let table = Table::from_bytes(Box::new([255; TABLE]));
    /// assert_eq!(table.start().unwrap_err(), Refusal::Foreign);
    /// ```
    pub fn from_bytes(bytes: Box<[u8; TABLE]>) -> Table {
        Table(Arc::from(bytes))
    }

    /// Its bytes, to save it.
    pub fn bytes(&self) -> &[u8; TABLE] {
        &self.0
    }

    /// How many events its sheet declares. Refused by 14.
    ///
    /// ```
    /// use poqashem::{Event, Refusal, Sheet};
    /// let table = Sheet::new([1, 0, 1, 5]).compile(None)?;
    /// assert_eq!((table.events()?, table.behaviours()?, table.rank(Event(0))?), (1, 0, 5));
    /// assert_eq!(table.rank(Event(1)), Err(Refusal::NoSuchEvent));
    /// # Ok::<(), Refusal>(())
    /// ```
    pub fn events(&self) -> Result<u32, Refusal> {
        Refusal::word_of(raw::event_count(&self.0[..]))
    }

    /// How many behaviours its sheet has. Refused by 14.
    pub fn behaviours(&self) -> Result<u32, Refusal> {
        Refusal::word_of(raw::behaviour_count(&self.0[..]))
    }

    /// An event's rank. Refused by 14, then 15.
    pub fn rank(&self, event: Event) -> Result<u32, Refusal> {
        Refusal::word_of(raw::event_rank(&self.0[..], event.0))
    }
}

impl fmt::Debug for Table {
    fn fmt(&self, f: &mut fmt::Formatter<'_>) -> fmt::Result {
        f.write_str("Table(34816 bytes)")
    }
}

/// So many zero bytes, never on the stack.
pub(crate) fn zeroed<const N: usize>() -> Box<[u8; N]> {
    match vec![0; N].into_boxed_slice().try_into() {
        Ok(bytes) => bytes,
        Err(_) => unreachable!("a vector of N bytes"),
    }
}
