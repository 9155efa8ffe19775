//! Further faults of a text: what is at fault is put aside, and the rest is read on.
use crate::fault::{nearest, Fault, Kind, Place};
use crate::hint::{declares, hint};
use crate::token::{all, Spot, Token, Word, WORDS};

/// So many faults are told of one text.
const MOST: usize = 8;

/// A text that is changed, with the place in the first one of each of its bytes.
struct Rest {
    bytes: Vec<u8>,
    from: Vec<usize>,
}

/// The faults of a text, the first one first, each with its hint. How a text is read is given: it answers the first
/// fault. One that is told of a declaration is told of no other, and nothing is told that only follows from it.
pub fn faults(text: &[u8], read: &dyn Fn(&[u8]) -> Option<Fault>) -> Vec<Fault> {
    let mut rest = Rest { bytes: text.to_vec(), from: (0..=text.len()).collect() };
    let mut found: Vec<Fault> = vec![];
    while let Some(mut fault) = read(&rest.bytes) {
        let inner = fault.place;
        fault.hint = hint(&rest.bytes, fault.kind, inner);
        fault.place = if found.is_empty() { inner } else { rest.origin(text, inner) };
        let again = found.iter().any(|f| f.place == fault.place);
        let mended = !again && rest.without(&fault, inner);
        if !again {
            found.push(fault);
        }
        if !mended || found.len() == MOST {
            break;
        }
    }
    found.sort_by_key(|fault| fault.place);
    found
}

/// Where a token's declaration, or its handler, begins.
fn begins(token: Token) -> bool {
    declares(token).is_some() || token == Token::Word(Word::On)
}

impl Rest {
    /// A place of this text in the first one.
    fn origin(&self, text: &[u8], place: Place) -> Place {
        let line_from = match place.line {
            1 => 0,
            n => self.bytes.iter().enumerate().filter(|(_, b)| **b == b'\n').nth(n - 2).map_or(0, |(k, _)| k + 1),
        };
        let before = &text[..self.from[(line_from + place.column - 1).min(self.bytes.len())]];
        let line = before.iter().filter(|b| **b == b'\n').count() + 1;
        let column = before.iter().rev().take_while(|b| **b != b'\n').count() + 1;
        Place { line, column }
    }

    /// Spaces instead of some bytes; lines stay.
    fn blank(&mut self, from: usize, to: usize) {
        self.bytes[from..to].iter_mut().filter(|b| **b != b'\n').for_each(|b| *b = b' ');
    }

    fn put(&mut self, at: usize, words: &str) {
        let origin = self.from[at];
        self.bytes.splice(at..at, words.bytes());
        self.from.splice(at..at, words.bytes().map(|_| origin));
    }

    /// Puts aside what is at fault; whether that could be done.
    fn without(&mut self, fault: &Fault, inner: Place) -> bool {
        if matches!(fault.kind, Kind::LongText | Kind::LongSheet | Kind::ShortBuffer | Kind::Crowded) {
            return false;
        }
        let bytes = self.bytes.clone();
        let spots = all(&bytes);
        let Some(at) = spots.iter().position(|spot| spot.place == inner) else { return false };
        match (fault.kind, spots[at].token) {
            (Kind::UnknownName, Token::Name(name)) if spots[at - 1].token != Token::Word(Word::On) => {
                self.without_name(&spots, name);
                true
            }
            (Kind::Outside, token) if due_is_a_declaration(&fault.why) && meant_for_next(&spots, at) => {
                self.at_top(&spots, at, token)
            }
            _ => self.without_part(&spots, at, fault.kind),
        }
    }

    /// A name that is not known: 0 in its place, in all formulas.
    fn without_name(&mut self, spots: &[Spot], name: &str) {
        for k in (1..spots.len()).rev().filter(|k| spots[*k].token == Token::Name(name)) {
            if begins(spots[k - 1].token) {
                continue;
            }
            let cell = spots.get(k + 1).is_some_and(|s| s.token == Token::Mark(b'['));
            let last = if cell { (k + 3).min(spots.len() - 1) } else { k };
            self.blank(spots[k].from, spots[last].to);
            self.put(spots[k].from, " 0 ");
        }
    }

    /// Where a declaration is due: one at the wrong place goes to its own, a word that is near a reserved one becomes
    /// that, anything else goes up to the next declaration, unless it may declare something.
    fn at_top(&mut self, spots: &[Spot], at: usize, token: Token) -> bool {
        let next = (at + 1..spots.len()).find(|k| begins(spots[*k].token)).unwrap_or(spots.len() - 1);
        let (from, to) = (spots[at].from, spots[next].from);
        match token {
            Token::Word(word @ (Word::Param | Word::Event)) => return self.moved_up(spots, at..next, word),
            Token::Name(name) => {
                let keywords = WORDS.iter().filter(|(_, w)| begins(Token::Word(*w))).map(|(word, _)| *word);
                let near = nearest(name, keywords);
                self.blank(from, if near.is_some() { spots[at].to } else { to });
                near.iter().for_each(|near| self.put(from, near));
                return near.is_some() || !matches!(spots[at + 1].token, Token::Name(_));
            }
            _ => self.blank(from, to),
        }
        true
    }

    /// A parameter or an event before what must stand behind it.
    fn moved_up(&mut self, spots: &[Spot], part: std::ops::Range<usize>, word: Word) -> bool {
        let behind = |other: Word| other != Word::Param && (word == Word::Param || other != Word::Event);
        let first = spots.iter().find(|s| declares(s.token).is_some_and(behind));
        let Some(first) = first.filter(|s| s.from < spots[part.start].from) else { return false };
        let tokens: Vec<&[u8]> = spots[part.clone()].iter().map(|s| &self.bytes[s.from..s.to]).collect();
        let tokens = String::from_utf8_lossy(&tokens.join(&b' ')).into_owned() + " ";
        self.blank(spots[part.start].from, spots[part.end].from);
        self.put(first.from, &tokens);
        true
    }

    /// The declaration or handler at fault; what it declares stays declared.
    fn without_part(&mut self, spots: &[Spot], at: usize, kind: Kind) -> bool {
        let Some(first) = (0..at).rev().find(|k| begins(spots[*k].token)) else { return false };
        let next = |of: &dyn Fn(Token) -> bool| {
            let found = (first + 1..spots.len()).find(|k| of(spots[*k].token));
            spots[found.unwrap_or(spots.len() - 1)].from
        };
        let (end, whole) = (next(&begins), next(&|token| declares(token).is_some()));
        let named = matches!(spots[first + 1].token, Token::Name(_)) && kind != Kind::Doubled;
        let (last, words) = match spots[first].token {
            Token::Word(Word::On) => (first, ""),
            _ if !named => (first, ""),
            Token::Word(Word::Row) if !counted(&spots[first + 2..]) => return false,
            Token::Word(Word::Row) => (first + 4, " = 0 "),
            Token::Word(Word::Param) => (first + 1, ""),
            Token::Word(Word::Event) => (first + 1, " rank 0 "),
            _ => (first + 1, " = 0 "),
        };
        if last == first {
            let handler = spots[first].token == Token::Word(Word::On);
            self.blank(spots[first].from, if handler { end } else { whole });
            return true;
        }
        self.blank(spots[last].to, end);
        self.put(spots[last].to, words);
        true
    }
}

/// Whether `[COUNT]` stands here.
fn counted(spots: &[Spot]) -> bool {
    let tokens: Vec<Token> = spots.iter().take(3).map(|spot| spot.token).collect();
    matches!(tokens[..], [Token::Mark(b'['), Token::Number(2..=16), Token::Mark(b']')])
}

/// Whether a token that ends a declaration is meant for the next one's: it begins one, or a line.
fn meant_for_next(spots: &[Spot], at: usize) -> bool {
    let first = at == 0 || spots[at - 1].place.line < spots[at].place.line;
    begins(spots[at].token) || (first && matches!(spots[at].token, Token::Name(_) | Token::Bad(_)))
}

/// Whether the reader's words are those of a declaration that is due.
fn due_is_a_declaration(why: &str) -> bool {
    ["`param`, `event`", "`event`, `passive`", "`passive`, `active`"].iter().any(|due| why.starts_with(due))
}

#[cfg(test)]
mod tests {
    use super::*;
    use crate::assemble;

    /// Kind, line and column of each fault.
    fn told(text: &str) -> Vec<(u32, usize, usize)> {
        let found = faults(text.as_bytes(), &|text| assemble(text).err());
        found.iter().map(|f| (f.kind.number(), f.place.line, f.place.column)).collect()
    }

    #[test]
    fn several() {
        let text = "evnet e rank 1\nactive a = 0\n  on e: scor + 1\n  on f: 1\npassive c = if(a, 1)\nactive c = 0\n";
        assert_eq!(told(text), [(31, 1, 1), (38, 3, 9), (38, 4, 6), (31, 5, 20), (35, 6, 8)]);
        // an unknown name once, and nothing that follows from another fault
        assert_eq!(told("passive a = x + y\npassive b = x + x[3]\n"), [(38, 1, 13), (38, 1, 17)]);
        assert_eq!(
            told("event e rank 99\nactive b = c\n  on e: b\nrow r[3] = = 1\n  on e: r[2] % 2\n"),
            [(33, 1, 14), (31, 2, 12), (31, 4, 12), (31, 5, 14)]
        );
        // what stands at the wrong place is declared
        let text = "event e rank 1\nparam p\nactive a = 0\nevent f rank 2\nactive b = 0\n  on f: p % 2\n";
        assert_eq!(told(text), [(31, 2, 1), (31, 4, 1), (31, 6, 11)]);
        // a bracket that stays open ends with its declaration
        assert_eq!(told("passive a = (1 + 2\npassive b = (a\npassive c = b\n"), [(31, 2, 1), (31, 3, 1)]);
    }

    /// Any text ends, its first fault first.
    #[test]
    fn anything() {
        let parts = [
            "event", "e", "rank", "1", "passive", "=", "(", ")", "on", ":", "row", "[", "3", "]", "%", "\n", "param",
            "x",
        ];
        let mut state = 1u64;
        let mut draw = |n: usize| {
            state = state.wrapping_mul(6364136223846793005).wrapping_add(1442695040888963407);
            (state >> 33) as usize % n
        };
        for _ in 0..20_000 {
            let words: Vec<&str> = (0..draw(24)).map(|_| parts[draw(parts.len())]).collect();
            let text = words.join(" ");
            let found = faults(text.as_bytes(), &|text| assemble(text).err());
            let first = assemble(text.as_bytes()).err().map(|f| (f.kind, f.place));
            assert!(found.iter().any(|f| Some((f.kind, f.place)) == first) || first.is_none(), "{text}");
        }
    }
}
