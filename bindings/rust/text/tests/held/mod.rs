//! The plain reader and writer, with the proved calls beside them: what they answer is also what assemble and describe
//! do, to the last byte of a buffer.
#![allow(dead_code)]
use sheet_text::{Assembled, Fault, SHEET};

/// As assemble packs it: the sheet's length, or kind, line and column.
fn packed(answer: &Result<usize, Fault>) -> u64 {
    match answer {
        Ok(length) => (1 << 32) + *length as u64,
        Err(Fault { kind, place, .. }) => {
            ((kind.number() as u64) << 56) + ((place.line as u64) << 28) + place.column as u64
        }
    }
}

pub fn assemble_into(text: &[u8], buffer: &mut [u8]) -> Result<usize, Fault> {
    let mut own = buffer.to_vec();
    let plain = sheet_text::assemble_into(text, buffer);
    let shown = String::from_utf8_lossy(&text[..text.len().min(300)]);
    assert_eq!(poqashem::raw::assemble(text, &mut own), packed(&plain), "{plain:?}\n{shown}");
    assert!(own == buffer, "assemble left other bytes\n{shown}");
    plain
}

pub fn assemble(text: &[u8]) -> Result<Assembled, Fault> {
    assemble_into(text, &mut [0xA5; SHEET])?;
    sheet_text::assemble(text)
}

/// The plain writer looks for no circle and counts no instructions, so that it takes more sheets.
pub fn describe(bytes: &[u8]) -> Result<String, u32> {
    let plain = sheet_text::describe(bytes);
    let proved = poqashem::Sheet::new(bytes).describe().map_err(poqashem::Refusal::number);
    match proved {
        Err(12 | 13) => assert!(plain.is_ok(), "{plain:?}"),
        _ => assert_eq!(proved, plain),
    }
    plain
}
