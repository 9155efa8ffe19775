//! A part of a list of files. The files' bytes, one file behind the other, are cut into so many stretches; a part has
//! the rounds, and the damages, that begin in its stretch. So each round is in one part, whatever its length, and a
//! file that lies in other parts' stretches alone is not opened.
use std::ops::Range;

/// Which part, from 1, of how many.
#[derive(Clone, Copy)]
pub struct Part {
    pub number: u64,
    pub of: u64,
}

impl Part {
    pub const ALL: Part = Part { number: 1, of: 1 };

    /// K/N, K from 1 to N.
    pub fn read(word: &str) -> Result<Part, String> {
        let numbers = word.split_once('/').and_then(|(k, n)| Some((k.parse().ok()?, n.parse().ok()?)));
        match numbers {
            Some((number, of)) if 1 <= number && number <= of => Ok(Part { number, of }),
            _ => Err(format!("--part takes K/N, K from 1 to N, and not {word}")),
        }
    }

    pub fn is_all(&self) -> bool {
        self.of == 1
    }

    /// Its stretch of so many bytes.
    fn stretch(&self, bytes: u64) -> Range<u64> {
        let cut = |k: u64| (bytes as u128 * k as u128 / self.of as u128) as u64;
        cut(self.number - 1)..cut(self.number)
    }

    /// What each file has of it, by the files' lengths: from where to where; none where it has nothing. A file of no
    /// bytes is a finding of its own, and belongs to the part in whose stretch it stands, the last at the end.
    pub fn of_files(&self, lengths: &[u64]) -> Vec<Option<Range<u64>>> {
        let all = lengths.iter().sum();
        let own = self.stretch(all);
        let mut begin = 0;
        let each = lengths.iter().map(|length| {
            let (from, to) = (begin, begin + length);
            begin = to;
            let empty = *length == 0 && (own.contains(&from) || from == all && self.number == self.of);
            let (low, high) = (own.start.max(from), own.end.min(to));
            (empty || low < high).then(|| low.max(from) - from..high.max(from) - from)
        });
        each.collect()
    }
}

#[cfg(test)]
mod tests {
    use super::*;

    /// Every byte of every file, and every file of none, is in exactly one part.
    #[test]
    fn each_byte_once() {
        for lengths in [&[10, 0, 7, 1][..], &[0], &[0, 0, 5, 0], &[1000], &[3, 3, 3]] {
            for of in 1..9 {
                let mut seen: Vec<Vec<u32>> = lengths.iter().map(|n| vec![0; 1.max(*n as usize)]).collect();
                for number in 1..=of {
                    for (k, own) in (Part { number, of }).of_files(lengths).into_iter().enumerate() {
                        let Some(own) = own else { continue };
                        let range = if lengths[k] == 0 { 0..1 } else { own.start as usize..own.end as usize };
                        seen[k][range].iter_mut().for_each(|n| *n += 1);
                    }
                }
                assert!(seen.iter().flatten().all(|n| *n == 1), "{lengths:?} in {of} parts: {seen:?}");
            }
        }
    }

    #[test]
    fn words() {
        assert!(Part::read("3/3").is_ok());
        for word in ["0/3", "4/3", "1", "a/b", "1/0", "-1/2"] {
            assert!(Part::read(word).is_err(), "{word}");
        }
    }
}
