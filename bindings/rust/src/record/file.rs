//! Files of recorded rounds: writing them, and reading them past damage.
use super::{Malformed, Record};
use std::fmt;
use std::io::{self, Read, Write};

/// The first bytes of a file.
const FIRST: &[u8; 16] = b"engine rounds 1\n";
/// The first bytes of a round.
const MARKER: [u8; 4] = [0xF5, b'R', b'N', b'D'];
/// Marker, length, sum of the body, sum of these twelve.
const HEAD: usize = 16;
/// How much is read at once.
const PIECE: usize = 1 << 18;

/// CRC-32 of the ISO 3309 polynomial, reflected.
fn sum(bytes: &[u8]) -> u32 {
    const TABLE: [u32; 256] = {
        let mut table = [0; 256];
        let mut byte = 0;
        while byte < 256 {
            let mut c = byte as u32;
            let mut bit = 0;
            while bit < 8 {
                c = if c & 1 == 1 { c >> 1 ^ 0xEDB8_8320 } else { c >> 1 };
                bit += 1;
            }
            table[byte] = c;
            byte += 1;
        }
        table
    };
    !bytes.iter().fold(!0, |c, b| c >> 8 ^ TABLE[((c ^ *b as u32) & 0xFF) as usize])
}

impl Record {
    /// The record as it stands in a file: head and body.
    pub fn to_bytes(&self) -> io::Result<Vec<u8>> {
        let body = self.body();
        let Ok(length) = u32::try_from(body.len()) else {
            return Err(io::Error::new(io::ErrorKind::InvalidInput, "a round of over 4,294,967,295 bytes"));
        };
        let mut out = Vec::with_capacity(HEAD + body.len());
        out.extend(MARKER);
        out.extend(length.to_be_bytes());
        out.extend(sum(&body).to_be_bytes());
        out.extend(sum(&out).to_be_bytes());
        out.extend(body);
        Ok(out)
    }
}

/// Writes records one after the other.
#[derive(Debug)]
pub struct Writer<W: Write> {
    out: W,
}

impl<W: Write> Writer<W> {
    /// To a new file.
    pub fn new(mut out: W) -> io::Result<Writer<W>> {
        out.write_all(FIRST)?;
        Ok(Writer { out })
    }

    /// To the end of a file that a writer began.
    pub fn append(out: W) -> Writer<W> {
        Writer { out }
    }

    /// One record, in one write.
    pub fn write(&mut self, record: &Record) -> io::Result<()> {
        self.out.write_all(&record.to_bytes()?)
    }

    /// What it wrote to.
    pub fn into_inner(self) -> W {
        self.out
    }
}

/// A stretch of a file from which no record could be read.
#[derive(Debug)]
pub struct Damage {
    /// Where it begins.
    pub at: u64,
    /// How many bytes were passed over.
    pub length: u64,
    /// What is wrong.
    pub harm: Harm,
}

/// What is wrong with a stretch of a file.
#[derive(Debug)]
#[non_exhaustive]
pub enum Harm {
    /// The file does not begin as it should.
    First,
    /// The file has no bytes.
    Empty,
    /// No head of a round stands where one is due.
    Head,
    /// The body is not the one that its sum was taken of.
    Sum,
    /// The file ends before the body does.
    Cut,
    /// The body is whole and not of the format.
    Form(Malformed),
    /// The file cannot be read on.
    Io(io::Error),
}

impl fmt::Display for Damage {
    fn fmt(&self, f: &mut fmt::Formatter<'_>) -> fmt::Result {
        match &self.harm {
            Harm::Empty => return write!(f, "the file has no bytes"),
            Harm::First => write!(f, "the file does not begin as a file of recorded rounds")?,
            Harm::Head => write!(f, "no round begins where one should")?,
            Harm::Sum => write!(f, "a round's bytes are not those that were written")?,
            Harm::Cut => write!(f, "the file ends within a round")?,
            Harm::Form(why) => write!(f, "a round is not of the format: {why}")?,
            Harm::Io(why) => return write!(f, "the file cannot be read from byte {} on: {why}", self.at),
        }
        match self.length {
            0 => write!(f, " (at byte {})", self.at),
            length => write!(f, " (bytes {} to {})", self.at, self.at + length - 1),
        }
    }
}

impl std::error::Error for Damage {}

/// Reads a file of recorded rounds, a piece at a time. Where it is damaged, the damage comes in place of the rounds
/// that it hit, and then the next round that is whole.
#[derive(Debug)]
pub struct Reader<R: Read> {
    source: R,
    buffer: Vec<u8>,
    /// Where the next byte stands in the buffer, and in the file.
    from: usize,
    at: u64,
    ended: bool,
    begun: bool,
}

impl<R: Read> Reader<R> {
    /// From the beginning of a file.
    pub fn new(source: R) -> Reader<R> {
        Reader { source, buffer: vec![], from: 0, at: 0, ended: false, begun: false }
    }

    /// How many bytes of the file are done with.
    pub fn position(&self) -> u64 {
        self.at
    }

    /// Whether so many bytes are there.
    fn have(&mut self, n: usize) -> io::Result<bool> {
        while self.buffer.len() - self.from < n && !self.ended {
            self.buffer.drain(..self.from);
            self.from = 0;
            let old = self.buffer.len();
            let more = n.saturating_sub(old).clamp(PIECE, 16 * PIECE);
            self.buffer.resize(old + more, 0);
            let got = loop {
                match self.source.read(&mut self.buffer[old..]) {
                    Err(e) if e.kind() == io::ErrorKind::Interrupted => continue,
                    other => break other,
                }
            };
            self.buffer.truncate(old + *got.as_ref().unwrap_or(&0));
            self.ended = got? == 0;
        }
        Ok(self.buffer.len() - self.from >= n)
    }

    fn pass(&mut self, n: usize) {
        self.from += n;
        self.at += n as u64;
    }

    /// The length of the body and its sum, where a whole head stands so many bytes on.
    fn head(&mut self, on: usize) -> io::Result<Option<(usize, u32)>> {
        if !self.have(on + HEAD)? {
            return Ok(None);
        }
        let head = &self.buffer[self.from + on..][..HEAD];
        let word = |k: usize| u32::from_be_bytes(head[4 * k..4 * k + 4].try_into().expect("four bytes"));
        let whole = head[..4] == MARKER && word(3) == sum(&head[..12]);
        Ok(whole.then(|| (word(1) as usize, word(2))))
    }

    /// Passes over bytes, the first at least, until a whole head or the end.
    fn search(&mut self) -> io::Result<()> {
        self.pass(1);
        while self.have(HEAD)? {
            let there = &self.buffer[self.from..];
            match there.iter().position(|b| *b == MARKER[0]) {
                Some(0) if self.head(0)?.is_some() => return Ok(()),
                Some(0) => self.pass(1),
                Some(n) => self.pass(n),
                None => self.pass(self.buffer.len() - self.from),
            }
        }
        self.pass(self.buffer.len() - self.from);
        Ok(())
    }

    /// Past a body that is damaged: by its length where a head or the end follows, else to the next head.
    fn past(&mut self, length: usize) -> io::Result<()> {
        let behind = HEAD + length;
        if self.have(behind)? && (self.head(behind)?.is_some() || !self.have(behind + 1)?) {
            self.pass(behind);
            return Ok(());
        }
        self.search()
    }

    /// The record at the head that stands here, or what is wrong with it; the file stands behind it then.
    fn body(&mut self, length: usize, due: u32) -> io::Result<Result<Record, Harm>> {
        if !self.have(HEAD + length)? {
            self.search()?;
            return Ok(Err(Harm::Cut));
        }
        let body = &self.buffer[self.from + HEAD..][..length];
        if sum(body) != due {
            self.past(length)?;
            return Ok(Err(Harm::Sum));
        }
        let record = Record::from_body(body).map_err(Harm::Form);
        self.pass(HEAD + length);
        Ok(record)
    }

    /// Passes over the rounds and the damage that begin before a byte of the file, to where the next would be read. Sums
    /// are looked at only where they decide where a round ends, so this is faster than reading; it comes to the same.
    pub fn pass_to(&mut self, byte: u64) -> io::Result<()> {
        while self.at < byte && self.have(1)? {
            if self.begun {
                if let Some((length, _)) = self.head(0)? {
                    let behind = HEAD + length;
                    if self.have(behind)? && (self.head(behind)?.is_some() || !self.have(behind + 1)?) {
                        self.pass(behind);
                        continue;
                    }
                }
            }
            if self.read()?.is_none() {
                return Ok(());
            }
        }
        Ok(())
    }

    fn read(&mut self) -> io::Result<Option<Result<Record, Harm>>> {
        while self.have(FIRST.len())? && self.buffer[self.from..].starts_with(FIRST) {
            self.pass(FIRST.len());
            self.begun = true;
        }
        if !self.begun {
            self.begun = true;
            if !self.have(1)? {
                return Ok(Some(Err(Harm::Empty)));
            }
            if self.head(0)?.is_none() {
                self.search()?;
            }
            return Ok(Some(Err(Harm::First)));
        }
        if !self.have(1)? {
            return Ok(None);
        }
        match self.head(0)? {
            Some((length, due)) => self.body(length, due).map(Some),
            None => {
                self.search()?;
                Ok(Some(Err(Harm::Head)))
            }
        }
    }
}

impl<R: Read> Iterator for Reader<R> {
    type Item = Result<Record, Damage>;

    fn next(&mut self) -> Option<Self::Item> {
        let at = self.at;
        let read = self.read().unwrap_or_else(|e| {
            // nothing is known of what was not read: neither a beginning nor a round is missed
            self.ended = true;
            self.begun = true;
            self.buffer.clear();
            self.from = 0;
            Some(Err(Harm::Io(e)))
        })?;
        Some(read.map_err(|harm| Damage { at, length: self.at - at, harm }))
    }
}

#[cfg(test)]
mod tests {
    use super::*;
    use crate::record::Request;
    use crate::{Event, Player, Sheet};

    #[test]
    fn sums_are_those_of_zip() {
        assert_eq!(sum(b"123456789"), 0xCBF4_3926);
    }

    fn rounds(n: usize) -> Vec<Vec<u8>> {
        let one = |k: usize| {
            let mut record = Record::new(format!("round {k}"), Sheet::new([]), None);
            (0..k).for_each(|_| record.push(Request::Arrive(Event(0), Player::HOST), 15, &[]));
            record.to_bytes().unwrap()
        };
        (0..n).map(one).collect()
    }

    /// The names read, and how many stretches are damaged.
    fn read(file: &[u8]) -> (Vec<String>, usize) {
        let all: Vec<_> = Reader::new(file).collect();
        let names = all.iter().flatten().map(|r| r.name.clone()).collect();
        (names, all.iter().filter(|r| r.is_err()).count())
    }

    /// Every byte of a file of rounds changed, left out or doubled, and the file cut at every byte: each round that was
    /// not hit is read, and no other.
    #[test]
    fn damage_costs_only_what_it_hits() {
        let parts = rounds(4);
        let whole = [&FIRST[..], &parts.concat()].concat();
        let (names, harmed) = read(&whole);
        assert_eq!((names.len(), harmed), (4, 0));
        let mut starts = vec![16];
        parts.iter().for_each(|p| starts.push(starts.last().unwrap() + p.len()));
        for at in 0..whole.len() {
            let hit = (0..4).find(|k| at < starts[k + 1] && at >= 16);
            let want: Vec<String> =
                names.iter().enumerate().filter(|(k, _)| Some(*k) != hit).map(|(_, n)| n.clone()).collect();
            let mut changed = whole.clone();
            changed[at] ^= 0x55;
            let mut dropped = whole.clone();
            dropped.remove(at);
            let mut doubled = whole.clone();
            doubled.insert(at, whole[at] ^ 0x55);
            for (what, file) in [("changed", changed), ("dropped", dropped)] {
                assert_eq!(read(&file), (want.clone(), 1), "byte {at} {what}");
            }
            // a byte put in before a round hits none
            let between = starts[..4].contains(&at);
            let (read_on, harmed) = read(&doubled);
            assert_eq!((if between { &names } else { &want }, 1), (&read_on, harmed), "byte {at} put in");
            let (first, _) = read(&whole[..at]);
            assert_eq!(first, names[..starts.iter().filter(|s| **s <= at).count().saturating_sub(1)], "cut at {at}");
        }
    }

    /// A file read from any byte on, whole or with any byte changed: what begins there or later, as when all is read.
    #[test]
    fn a_part_of_a_file() {
        let parts = rounds(3);
        let whole = [&FIRST[..], &parts.concat(), &FIRST[..], &parts[1]].concat();
        let read_from = |file: &[u8], byte: u64| {
            let (mut reader, mut found) = (Reader::new(file), vec![]);
            reader.pass_to(byte).unwrap();
            loop {
                let at = reader.position();
                let Some(next) = reader.next() else { return found };
                found.push((at, next.map(|r| r.name).map_err(|d| d.to_string())));
            }
        };
        for changed in 0..whole.len() {
            let mut file = whole.clone();
            file[changed] ^= if changed == 0 { 0 } else { 0x55 };
            let all = read_from(&file, 0);
            for byte in 0..=file.len() as u64 {
                let later: Vec<_> = all.iter().filter(|(at, _)| *at >= byte).cloned().collect();
                assert_eq!(read_from(&file, byte), later, "byte {changed} changed, from byte {byte} on");
            }
        }
    }

    /// Bytes that are no file of rounds: an error, and nothing else.
    #[test]
    fn other_bytes() {
        assert_eq!(read(b""), (vec![], 1));
        assert_eq!(Reader::new(&b""[..]).next().unwrap().unwrap_err().to_string(), "the file has no bytes");
        let headless = rounds(1).concat();
        let first = Reader::new(&headless[..]).next().unwrap().unwrap_err().to_string();
        assert_eq!(first, "the file does not begin as a file of recorded rounds (at byte 0)");
        assert_eq!(read(&[0xF5; 100_000]), (vec![], 1));
        assert_eq!(read(&FIRST[..]), (vec![], 0), "a file of no rounds");
        let file = [&FIRST[..], &rounds(2).concat()].concat();
        let (names, harmed) = read(&[&file[..], &FIRST[..], &file].concat());
        assert_eq!((names.len(), harmed), (4, 0), "files one behind the other");
    }

    /// Bytes, and then an error.
    struct Breaks<'a>(&'a [u8]);

    impl Read for Breaks<'_> {
        fn read(&mut self, buffer: &mut [u8]) -> io::Result<usize> {
            if self.0.is_empty() {
                return Err(io::Error::other("the disk is gone"));
            }
            self.0.read(buffer)
        }
    }

    /// A file that cannot be read on, from its first byte or any other: the rounds before, the error, and nothing else,
    /// since nothing is known of what was not read.
    #[test]
    fn an_error_is_the_last() {
        let parts = rounds(3);
        let whole = [&FIRST[..], &parts.concat()].concat();
        for at in 0..=whole.len() {
            let all: Vec<_> = Reader::new(Breaks(&whole[..at])).collect();
            let (last, before) = all.split_last().expect("an error");
            assert!(matches!(last, Err(Damage { harm: Harm::Io(_), .. })), "cut at {at}: {last:?}");
            assert!(before.iter().all(Result::is_ok), "cut at {at}: {before:?}");
        }
    }
}
