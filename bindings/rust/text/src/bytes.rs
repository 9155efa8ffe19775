//! A sheet's bytes to its declarations, with 01's and 02's numbers for what is turned down on the way, and back.
use crate::tree::{arity, Active, Behaviour, Body, Event, Expr, Handler, Sheet, LAST};
use crate::{BEHAVIOURS, CELLS, EVENTS, NESTING, PARAMS, RANK, SHEET};

// tags
const EVENT: u8 = 0x01;
const PASSIVE: u8 = 0x02;
const ACTIVE: u8 = 0x03;
const START: u8 = 0x04;
const HANDLER: u8 = 0x05;
const ROW: u8 = 0x06;
const VIEWERS: u8 = 0x08;
const CONSTANT: u8 = 0x10;
const NAME: u8 = 0x11;
const APPLICATION: u8 = 0x12;
const PARAM: u8 = 0x13;

// refusals
const LONG_SHEET: u32 = 3;
const TORN: u32 = 4;
const WRONG_TAG: u32 = 5;
const WRONG_LENGTH: u32 = 6;
const CROWDED: u32 = 7;
const OFF_THE_SCALE: u32 = 8;
const TOO_DEEP: u32 = 9;
const DOUBLED: u32 = 10;
const UNKNOWN_NAME: u32 = 11;

/// Bytes of a field before its value.
const HEADER: usize = 3;

// ---- from bytes

/// A field whose tag is one of those due: tag, value and what follows.
fn field<'a>(bytes: &'a [u8], due: &[u8]) -> Result<(u8, &'a [u8], &'a [u8]), u32> {
    let [tag, high, low, rest @ ..] = bytes else { return Err(TORN) };
    if !due.contains(tag) {
        return Err(WRONG_TAG);
    }
    let length = usize::from(u16::from_be_bytes([*high, *low]));
    if length > rest.len() {
        return Err(TORN);
    }
    let (value, rest) = rest.split_at(length);
    Ok((*tag, value, rest))
}

fn word(value: &[u8]) -> Result<i32, u32> {
    value.try_into().map(i32::from_be_bytes).map_err(|_| WRONG_LENGTH)
}

fn byte(value: &[u8]) -> Result<u8, u32> {
    match value {
        [one] => Ok(*one),
        _ => Err(WRONG_LENGTH),
    }
}

/// An expression at so deep a nesting, and what follows.
fn expr(bytes: &[u8], nesting: usize) -> Result<(Expr, &[u8]), u32> {
    let (tag, value, rest) = field(bytes, &[CONSTANT, NAME, APPLICATION, PARAM])?;
    if nesting > NESTING {
        return Err(TOO_DEEP);
    }
    let expr = match tag {
        CONSTANT => Expr::Constant(word(value)?),
        NAME => Expr::Name(byte(value)?.into()),
        PARAM => match byte(value)?.into() {
            number if number < PARAMS => Expr::Param(number),
            _ => return Err(OFF_THE_SCALE),
        },
        _ => application(value, nesting)?,
    };
    Ok((expr, rest))
}

fn application(value: &[u8], nesting: usize) -> Result<Expr, u32> {
    let [function, rest @ ..] = value else { return Err(WRONG_LENGTH) };
    if !(1..=LAST).contains(function) {
        return Err(OFF_THE_SCALE);
    }
    let mut rest = rest;
    let mut arguments = Vec::with_capacity(arity(*function));
    for _ in 0..arity(*function) {
        let (argument, left) = expr(rest, nesting + 1)?;
        arguments.push(argument);
        rest = left;
    }
    nothing(rest)?;
    Ok(Expr::Apply(*function, arguments))
}

fn nothing(left: &[u8]) -> Result<(), u32> {
    if left.is_empty() {
        Ok(())
    } else {
        Err(WRONG_LENGTH)
    }
}

/// The end of a behaviour: who may see it, or nothing.
fn viewers(left: &[u8]) -> Result<Option<u8>, u32> {
    match left.first() {
        None => return Ok(None),
        Some(&VIEWERS) => {}
        Some(_) => return Err(WRONG_LENGTH),
    }
    let (_, value, rest) = field(left, &[VIEWERS])?;
    let viewers = byte(value)?;
    nothing(rest)?;
    Ok(Some(viewers))
}

fn handler(value: &[u8], events: usize, so_far: &[Handler]) -> Result<Handler, u32> {
    let event = usize::from(*value.first().ok_or(WRONG_LENGTH)?);
    if event >= events {
        return Err(OFF_THE_SCALE);
    }
    let phase = *value.get(1).ok_or(WRONG_LENGTH)?;
    if phase > 1 {
        return Err(OFF_THE_SCALE);
    }
    if so_far.iter().any(|h| h.event == event) {
        return Err(DOUBLED);
    }
    let (expr, rest) = expr(&value[2..], 1)?;
    nothing(rest)?;
    Ok(Handler { event, later: phase == 1, expr })
}

fn active(value: &[u8], events: usize) -> Result<(Active, &[u8]), u32> {
    let (_, start, mut rest) = field(value, &[START])?;
    let start = word(start)?;
    let mut handlers = vec![];
    while rest.first().is_some_and(|tag| *tag != VIEWERS) {
        let (_, value, left) = field(rest, &[HANDLER])?;
        handlers.push(handler(value, events, &handlers)?);
        rest = left;
    }
    Ok((Active { start, handlers }, rest))
}

/// A row's cell count, where its first cell has a number, and what follows.
fn cells(value: &[u8], first: usize) -> Result<(u8, &[u8]), u32> {
    let [count, rest @ ..] = value else { return Err(WRONG_LENGTH) };
    if !CELLS.contains(&(*count).into()) {
        return Err(OFF_THE_SCALE);
    }
    if first + usize::from(*count) > BEHAVIOURS {
        return Err(CROWDED);
    }
    Ok((*count, rest))
}

fn behaviour(tag: u8, value: &[u8], sheet: &Sheet) -> Result<Behaviour, u32> {
    let first = sheet.count();
    if first == BEHAVIOURS {
        return Err(CROWDED);
    }
    let events = sheet.events.len();
    let (body, rest) = match tag {
        PASSIVE => expr(value, 1).map(|(e, rest)| (Body::Passive(e), rest))?,
        ACTIVE => active(value, events).map(|(a, rest)| (Body::Active(a), rest))?,
        _ => {
            let (count, value) = cells(value, first)?;
            active(value, events).map(|(a, rest)| (Body::Row(count, a), rest))?
        }
    };
    Ok(Behaviour { body, viewers: viewers(rest)? })
}

fn event(value: &[u8], sheet: &Sheet) -> Result<Event, u32> {
    if sheet.events.len() == EVENTS {
        return Err(CROWDED);
    }
    let (rank, senders) = match value {
        [rank] => (*rank, None),
        [rank, senders] => (*rank, Some(*senders)),
        _ => return Err(WRONG_LENGTH),
    };
    if u64::from(rank) > RANK {
        return Err(OFF_THE_SCALE);
    }
    Ok(Event { rank, senders })
}

fn known(expr: &Expr, count: usize) -> bool {
    match expr {
        Expr::Name(n) => *n < count,
        Expr::Apply(_, arguments) => arguments.iter().all(|a| known(a, count)),
        Expr::Constant(_) | Expr::Param(_) => true,
    }
}

fn names_known(behaviour: &Behaviour, count: usize) -> bool {
    match &behaviour.body {
        Body::Passive(e) => known(e, count),
        Body::Active(a) | Body::Row(_, a) => a.handlers.iter().all(|h| known(&h.expr, count)),
    }
}

/// What the bytes declare, or compile's number: 3, then 4 to 10 from left to right, then 11. Circles (12) and too many
/// instructions (13) are not looked for.
pub fn decode(bytes: &[u8]) -> Result<Sheet, u32> {
    if bytes.len() > SHEET {
        return Err(LONG_SHEET);
    }
    let mut sheet = Sheet::default();
    let mut rest = bytes;
    while !rest.is_empty() {
        let due: &[u8] =
            if sheet.behaviours.is_empty() { &[EVENT, PASSIVE, ACTIVE, ROW] } else { &[PASSIVE, ACTIVE, ROW] };
        let (tag, value, left) = field(rest, due)?;
        if tag == EVENT {
            let event = event(value, &sheet)?;
            sheet.events.push(event);
        } else {
            let behaviour = behaviour(tag, value, &sheet)?;
            sheet.behaviours.push(behaviour);
        }
        rest = left;
    }
    let count = sheet.count();
    if sheet.behaviours.iter().all(|b| names_known(b, count)) {
        Ok(sheet)
    } else {
        Err(UNKNOWN_NAME)
    }
}

/// Where the event or the behaviour begins that is turned down with this number, 4 to 10, and which one it is.
pub fn field_at_fault(bytes: &[u8], number: u32) -> Option<(usize, String)> {
    let mut from = 0;
    let mut counts = [0, 0];
    while from < bytes.len() {
        let length = |header: &[u8]| HEADER + usize::from(u16::from_be_bytes([header[1], header[2]]));
        let to = bytes.get(from..from + HEADER).map_or(bytes.len(), |header| from + length(header)).min(bytes.len());
        let is_event = bytes[from] == EVENT;
        if decode(&bytes[..to]).err() == Some(number) && number != UNKNOWN_NAME {
            let [events, behaviours] = counts;
            let what = if is_event {
                format!("event {events}")
            } else {
                format!("declaration {behaviours} behind the events")
            };
            return Some((from, what));
        }
        counts[usize::from(!is_event)] += 1;
        from = to;
    }
    None
}

// ---- to bytes

fn expr_length(expr: &Expr) -> usize {
    match expr {
        Expr::Constant(_) => HEADER + 4,
        Expr::Name(_) | Expr::Param(_) => HEADER + 1,
        Expr::Apply(_, arguments) => HEADER + 1 + arguments.iter().map(expr_length).sum::<usize>(),
    }
}

/// A header. A length of over two bytes only arises in a sheet that is too long as a whole.
fn open(out: &mut Vec<u8>, tag: u8, length: usize) {
    out.push(tag);
    out.extend((length as u16).to_be_bytes());
}

fn put(out: &mut Vec<u8>, tag: u8, value: &[u8]) {
    open(out, tag, value.len());
    out.extend(value);
}

fn put_expr(out: &mut Vec<u8>, expr: &Expr) {
    match expr {
        Expr::Constant(value) => put(out, CONSTANT, &value.to_be_bytes()),
        Expr::Name(number) => put(out, NAME, &[*number as u8]),
        Expr::Param(number) => put(out, PARAM, &[*number as u8]),
        Expr::Apply(function, arguments) => {
            open(out, APPLICATION, expr_length(expr) - HEADER);
            out.push(*function);
            arguments.iter().for_each(|a| put_expr(out, a));
        }
    }
}

fn put_active(out: &mut Vec<u8>, active: &Active) {
    put(out, START, &active.start.to_be_bytes());
    for h in &active.handlers {
        open(out, HANDLER, 2 + expr_length(&h.expr));
        out.extend([h.event as u8, h.later.into()]);
        put_expr(out, &h.expr);
    }
}

/// The bytes of a sheet.
pub fn encode(sheet: &Sheet) -> Vec<u8> {
    let mut out = vec![];
    for event in &sheet.events {
        let value: Vec<u8> = [event.rank].into_iter().chain(event.senders).collect();
        put(&mut out, EVENT, &value);
    }
    for behaviour in &sheet.behaviours {
        let mut value = vec![];
        let tag = match &behaviour.body {
            Body::Passive(expr) => {
                put_expr(&mut value, expr);
                PASSIVE
            }
            Body::Active(active) => {
                put_active(&mut value, active);
                ACTIVE
            }
            Body::Row(cells, active) => {
                value.push(*cells);
                put_active(&mut value, active);
                ROW
            }
        };
        behaviour.viewers.iter().for_each(|v| put(&mut value, VIEWERS, &[*v]));
        put(&mut out, tag, &value);
    }
    out
}
