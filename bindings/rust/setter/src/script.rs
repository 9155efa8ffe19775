//! Scripts: one statement a line, read whole before anything is played.
use crate::failure::Failure;
use crate::file::{bytes_of, SheetFile};
use poqashem::Player;
use std::path::Path;

/// What a line asks for. Names are looked up when it is played, in the sheet that is then in force.
pub enum Ask {
    /// These events arrive, one after the other.
    Send { events: Vec<String>, player: Player },
    /// So many steps pass.
    Steps(u64),
    /// Steps until nothing is in hand.
    Run,
    /// The board, or some of it, as a player sees it.
    Board { names: Vec<String>, player: Player },
    /// What the board would show if this event arrived now and all in hand were run.
    Preview { event: String, names: Vec<String>, player: Player },
    /// What a player must see, name by name; else the script fails.
    Expect { values: Vec<(String, String)>, player: Player },
    /// How many steps until idle.
    Forecast,
    /// The round goes on under another sheet, by number or by name.
    Mend { file: Box<SheetFile>, by_name: bool },
}

pub struct Statement {
    pub line: usize,
    pub ask: Ask,
}

pub struct Script {
    pub path: String,
    pub statements: Vec<Statement>,
}

/// What a script may say, for messages.
const VERBS: &str = "a line begins with send, steps, run, board, expect, preview, forecast, mend or repeat";

/// So often a line is repeated, at most.
const REPEATS: usize = 100_000;

impl Script {
    /// Reads a script and the sheets that it changes to.
    pub fn load(path: &str, given: &[(String, i32)]) -> Result<Script, Failure> {
        Script::read(path, bytes_of(path)?, given)
    }

    /// The same from the bytes of a file of this path.
    pub fn read(path: &str, bytes: Vec<u8>, given: &[(String, i32)]) -> Result<Script, Failure> {
        if let Some(hint) = sheet_text::encoding(&bytes) {
            return Err(wrong(path, 1, hint));
        }
        let text = String::from_utf8(bytes).map_err(|_| Failure::input(format!("{path}: is no text")))?;
        let mut script = Script { path: path.to_string(), statements: vec![] };
        for (k, line) in text.lines().enumerate() {
            let words: Vec<&str> = line.split('#').next().unwrap_or("").split_whitespace().collect();
            let [verb, rest @ ..] = &words[..] else { continue };
            let at = At { path, line: k + 1, given };
            script.statements.extend(at.statements(verb, rest)?);
        }
        Ok(script)
    }

    /// The paths of the sheets that it changes to.
    pub fn sheets(&self) -> Vec<&str> {
        let asks = self.statements.iter().map(|statement| &statement.ask);
        asks.filter_map(|ask| if let Ask::Mend { file, .. } = ask { Some(file.path.as_str()) } else { None }).collect()
    }
}

/// A line that is being read.
struct At<'a> {
    path: &'a str,
    line: usize,
    given: &'a [(String, i32)],
}

impl At<'_> {
    fn wrong(&self, why: impl AsRef<str>) -> Failure {
        wrong(self.path, self.line, why)
    }

    /// One statement, or those of a `repeat`, which commas part.
    fn statements(&self, verb: &str, rest: &[&str]) -> Result<Vec<Statement>, Failure> {
        let one = |verb: &str, rest: &[&str]| self.ask(verb, rest).map(|ask| Statement { line: self.line, ask });
        if verb != "repeat" {
            return Ok(vec![one(verb, rest)?]);
        }
        let usage = || self.wrong("repeat needs a number and what to repeat: repeat COUNT STATEMENT [, STATEMENT ..]");
        let [count, rest @ ..] = rest else { return Err(usage()) };
        let count: usize = count.parse().ok().filter(|n| *n <= REPEATS).ok_or_else(usage)?;
        let whole = rest.join(" ");
        let parts: Vec<Vec<&str>> = whole.split(',').map(|part| part.split_whitespace().collect()).collect();
        let mut statements = vec![];
        for _ in 0..count {
            for part in &parts {
                let [verb, rest @ ..] = &part[..] else { return Err(usage()) };
                statements.push(one(verb, rest)?);
            }
        }
        Ok(statements)
    }

    /// Names and values in turn.
    fn expect(&self, rest: &[&str]) -> Result<Ask, Failure> {
        let (words, player) = self.player(rest, "by")?;
        let pairs: Vec<(String, String)> = words.chunks_exact(2).map(|w| (w[0].clone(), w[1].clone())).collect();
        let value = |value: &str| value == "hidden" || value.parse::<i32>().is_ok();
        if pairs.is_empty() || words.len() % 2 == 1 || !pairs.iter().all(|(_, v)| value(v)) {
            return Err(self.wrong("expect needs names and values: expect BEHAVIOUR VALUE .. [by PLAYER]"));
        }
        Ok(Ask::Expect { values: pairs, player })
    }

    fn ask(&self, verb: &str, rest: &[&str]) -> Result<Ask, Failure> {
        match verb {
            "expect" => self.expect(rest),
            "send" => {
                let (events, player) = self.player(rest, "from")?;
                if events.is_empty() {
                    return Err(self.wrong("send needs an event's name: send EVENT .. [from PLAYER]"));
                }
                Ok(Ask::Send { events, player })
            }
            "step" | "steps" => match rest {
                [] if verb == "step" => Ok(Ask::Steps(1)),
                [count] => {
                    count.parse().map(Ask::Steps).map_err(|_| self.wrong(format!("{count} is no number of steps")))
                }
                _ => Err(self.wrong("steps needs one number: steps COUNT")),
            },
            "board" => self.player(rest, "by").map(|(names, player)| Ask::Board { names, player }),
            "preview" => {
                let (mut names, player) = self.player(rest, "by")?;
                if names.is_empty() {
                    return Err(self.wrong("preview needs an event's name: preview EVENT [BEHAVIOUR ..] [by PLAYER]"));
                }
                let event = names.remove(0);
                Ok(Ask::Preview { event, names, player })
            }
            "run" if rest.is_empty() => Ok(Ask::Run),
            "forecast" if rest.is_empty() => Ok(Ask::Forecast),
            "run" | "forecast" => Err(self.wrong(format!("{verb} stands alone on its line"))),
            "mend" => self.mend(rest),
            _ => Err(self.wrong(format!("{verb} is not known: {VERBS}"))),
        }
    }

    /// Names, and the player behind a word at the end; the host where none is named.
    fn player(&self, words: &[&str], before: &str) -> Result<(Vec<String>, Player), Failure> {
        let (names, player) = match words {
            [names @ .., word, number] if *word == before => {
                let known = number.parse().map_err(|_| self.wrong(format!("{number} is no player's number")))?;
                (names, Player(known))
            }
            names => (names, Player::HOST),
        };
        if names.contains(&before) {
            return Err(self.wrong(format!("{before} is followed by one player's number, at the end of the line")));
        }
        Ok((names.iter().map(|n| n.to_string()).collect(), player))
    }

    /// Another sheet, its path taken from the script's folder.
    fn mend(&self, rest: &[&str]) -> Result<Ask, Failure> {
        let [name, values @ ..] = rest else {
            return Err(self.wrong("mend needs a file: mend FILE [by name] [PARAMETER=VALUE ..]"));
        };
        let (values, by_name) = match values {
            ["by", "name", values @ ..] => (values, true),
            values => (values, false),
        };
        let folder = Path::new(self.path).parent().unwrap_or(Path::new(""));
        let path = folder.join(name);
        let mut file = SheetFile::load(&path.to_string_lossy())?;
        // what the command gives holds for every sheet that has such a parameter
        for (param, value) in self.given {
            file.set(param, *value);
        }
        for word in values {
            let (param, value) =
                assignment(word).ok_or_else(|| self.wrong(format!("{word} is not PARAMETER=VALUE")))?;
            if !file.set(&param, value) {
                return Err(self.wrong(format!("{name} has no parameter {param}")));
            }
        }
        file.all_given()?;
        file.compile()?;
        Ok(Ask::Mend { file: Box::new(file), by_name })
    }
}

/// A message about a script's line.
pub fn wrong(path: &str, line: usize, why: impl AsRef<str>) -> Failure {
    Failure::input(format!("{path}:{line}: {}", why.as_ref()))
}

/// `NAME=VALUE`.
pub fn assignment(word: &str) -> Option<(String, i32)> {
    let (name, value) = word.split_once('=')?;
    Some((name.to_string(), value.parse().ok()?))
}
