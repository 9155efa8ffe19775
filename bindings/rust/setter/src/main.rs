//! The setter's program: sheets written as text are checked, built, shown, played and drawn.
//!
//! What reads, judges, describes or runs a sheet is the proved engine, through the Rust crate. Plain Rust are the names
//! that are printed, taken from the accepted text, and the words behind a fault.
mod apart;
mod check;
mod constants;
mod differ;
mod excerpt;
mod failure;
mod file;
mod json;
mod names;
mod output;
mod paint;
mod phones;
mod play;
mod scene;
mod script;
mod timeline;
mod trial;
mod wording;

use failure::Failure;
use file::{Order, SheetFile};
use output::{Kind, Output};
use phones::Wish;
use script::Script;
use std::io::Write;
use std::process::ExitCode;
use wording::several;

const HELP: &str = "\
setter: sheets written as text

  setter check FILE                    is it accepted, how large is it, may two phones end apart, what may leak
  setter build FILE OUT                write the sheet's bytes
  setter new FILE                      write a small sheet to begin with
  setter differ FILE [OUT]             two phones that end apart: both scripts, and a picture
  setter try FILE                      look for two phones that end apart, at random
  setter names FILE                    its numbers for a host's program, in C, Rust, TypeScript, Java or Swift
  setter show SHEET                    a sheet's bytes as text
  setter join FIRST SECOND OUT         write the bytes of two sheets joined to one
  setter play FILE SCRIPT              play a round by name
  setter timeline FILE SCRIPT OUT.svg  draw the same round
  setter help COMMAND                  more on a command
  setter --version                     the program's version and the engine's

A FILE is text (docs/SHEETS.md) or a sheet's bytes, - is standard input; of bytes, e0, b0 and p0 are the names. A text's
sheet or fault, a sheet's text, circles, instructions, phones, leaks and rounds are the proved engine's answers. No file
that is read, and none of another kind than is written, is written over without --force. Ends with 0; with 1 where a
file cannot be read or is turned down, with 2 where it was called wrongly.
";

const CHECK: &str = "\
setter check FILE [--winner NAME ..] [--boards N] [--frame STEPS] [--strict] [--json]
                  [--join OTHER [--by-name]] [--param NAME=VALUE ..]

Says whether the sheet is accepted, with its bytes, parameters, events, behaviours and instructions beside their limits;
whether two phones that take in the same events in the same order, at most 64 in hand, have equal boards when idle, or
may end apart: then which event writes and which reads what, which events must have one rank, and two lists of calls on
which phones end apart, looked for on at most N boards (about two seconds' worth where none are named), a search; and
what is proved equal and what may differ, of the behaviours that --winner names, or of all; for the players, what is
hidden, and whether its start value may leak, a warning. A fault of the text is told as FILE:LINE:COLUMN, a circle by
its names and event. --frame tells the longest event in frames of so many steps. With --join, of FILE joined with OTHER.
--strict ends with 1 where phones may end apart or something may leak; --json prints one line of JSON, of faults too.
";

const DIFFER: &str = "\
setter differ FILE [OUT] [--winner NAME ..] [--boards N] [--join OTHER [--by-name]] [--param NAME=VALUE ..] [--force]

Looks for two phones that end apart, as check does. Where it finds some it writes what they do as scripts for
`setter play`, OUT-1.play and OUT-2.play, and a picture of both over the same steps, OUT.svg; OUT is FILE's name with
-differ where none is named. Else it writes nothing and says how far it looked. A file that is there must be one that
differ wrote; --force writes over any.
";

const NEW: &str = "\
setter new FILE

Writes a small sheet with comments, and beside it a script that plays it, under the same name with the ending .play. No
file that is there is written over.
";

const TRY: &str = "\
setter try FILE [--seed N] [--runs N] [--join OTHER [--by-name]] [--param NAME=VALUE ..] [--strict]

Draws events at random and lets two phones take them in, in one order, with unlike cuts of their steps; compares the
boards when both are idle. Says found, with the two scripts and boards, or not found, which is no proof. The same seed
gives the same runs: 1, and 10,000 runs, where none are given. --strict ends with 1 where it is found.
";

const NAMES: &str = "\
setter names FILE [--as LANGUAGE] [--join OTHER [--by-name]] [--param NAME=VALUE ..]

Prints the numbers of events, behaviours, rows and parameters under their names, and the 32 bytes that lend the
parameters, as c (where none is named), rust, typescript, java or swift.
";

const BUILD: &str = "\
setter build FILE OUT [--join OTHER [--by-name]] [--force]

Writes the sheet's bytes to OUT if the engine accepts the sheet, and nothing else. Parameters stay parameters.
A file OUT that is there must be a sheet's bytes, and none that is read; --force writes over any.
";

const SHOW: &str = "\
setter show SHEET

Prints a sheet's bytes as text, with the names e0, b0 and p0; read again it gives the same bytes. A sheet that the
engine turns down is told with its number.
";

const JOIN: &str = "\
setter join FIRST SECOND OUT [--by-name] [--force]

Writes one sheet from two: events are shared by number and have the same rank in both, behaviours of the second follow
those of the first, parameters are shared by number; where a number has two names, that is a warning. With --by-name the
second, a text, is first brought into the order of the first. A file OUT that is there must be a sheet's bytes, and none
that is read; --force writes over any.
";

const PLAY: &str = "\
setter play FILE SCRIPT [--frame STEPS] [--join OTHER [--by-name]] [--param NAME=VALUE ..]

Plays a fresh round of the sheet and prints what happens, each line after the number of steps made, and of the frames
begun where a frame has so many STEPS. A parameter has the text's default unless one is given. A script has one
statement a line; # begins a comment:

  send EVENT .. [from PLAYER]               they arrive, one after the other; from the host where none is named
  steps COUNT                               so many steps pass
  run                                       steps until nothing is in hand
  board [BEHAVIOUR ..] [by PLAYER]          what the player sees: all, or a behaviour, a row or a cell, lamp[3]
  expect BEHAVIOUR VALUE .. [by PLAYER]     the player sees this value, or hidden; else it ends with 1
  preview EVENT [BEHAVIOUR ..] [by PLAYER]  what the board would show if the player sent this event now
  forecast                                  how many steps until nothing is in hand
  mend OTHER [by name] [NAME=VALUE ..]      the round goes on under another sheet, its path from the script's folder
  repeat COUNT STATEMENT [, STATEMENT ..]   these, so often

A change of sheets goes by number, and warns where a number has another name then; by name, OTHER, a text, is brought
into the order of the sheet before.
";

const TIMELINE: &str = "\
setter timeline FILE SCRIPT OUT.svg [--frame STEPS] [--join OTHER [--by-name]] [--param NAME=VALUE ..] [--force]

Draws what play prints: a lane for each event, a bar while it runs, what was dropped at a break-in, restarts, commits,
arrivals with their senders, what waits, refusals by their word, boards, previews and forecasts, and changes of the
sheet, over the steps, or over frames of so many STEPS. What a sign stands for is told where the pointer rests on it. A
file OUT.svg that is there must be a picture, and none that is read; --force writes over any.
";

/// A command, its help, and how many files it names.
const COMMANDS: [(&str, &str, usize); 10] = [
    ("differ", DIFFER, 1),
    ("new", NEW, 1),
    ("try", TRY, 1),
    ("names", NAMES, 1),
    ("check", CHECK, 1),
    ("build", BUILD, 2),
    ("show", SHOW, 1),
    ("join", JOIN, 3),
    ("play", PLAY, 2),
    ("timeline", TIMELINE, 3),
];

/// What play prints on a line, behind the number of steps.
const COLUMNS: usize = 110;
const MARGIN: usize = 8;

#[derive(Default)]
struct Asked {
    files: Vec<String>,
    given: Vec<(String, i32)>,
    join: Option<String>,
    force: bool,
    by_name: bool,
    strict: bool,
    json: bool,
    language: Option<String>,
    seed: Option<u64>,
    runs: Option<u64>,
    wish: Wish,
    frame: Option<u64>,
    help: bool,
}

impl Asked {
    /// The last of the files, which the command writes; the others it reads, and those that a script changes to.
    fn output(&self, kind: Kind, mended: &[&str]) -> Result<Output<'_>, Failure> {
        let (path, inputs) = self.files.split_last().expect("a command that writes names a file");
        let output = Output { path, kind, force: self.force };
        output.check(inputs.iter().chain(&self.join).map(String::as_str).chain(mended.iter().copied()))?;
        Ok(output)
    }
}

/// The word behind an option.
fn behind<T: std::str::FromStr>(words: &mut impl Iterator<Item = String>, why: &str) -> Result<T, Failure> {
    words.next().and_then(|word| word.parse().ok()).ok_or_else(|| Failure::Usage(why.to_string()))
}

/// How many steps a frame has.
fn steps_of_a_frame(words: &mut impl Iterator<Item = String>) -> Result<u64, Failure> {
    let why = "--frame needs a number of steps, 1 or more";
    behind(words, why).and_then(|steps| if steps > 0 { Ok(steps) } else { Err(Failure::Usage(why.to_string())) })
}

fn asked(words: impl Iterator<Item = String>) -> Result<Asked, Failure> {
    let mut asked = Asked::default();
    let mut words = words;
    while let Some(word) = words.next() {
        match word.as_str() {
            "--help" | "-h" => asked.help = true,
            "--force" => asked.force = true,
            "--by-name" => asked.by_name = true,
            "--strict" => asked.strict = true,
            "--json" => asked.json = true,
            "--as" => asked.language = Some(behind(&mut words, "--as needs a language")?),
            "--seed" => asked.seed = Some(behind(&mut words, "--seed needs a number")?),
            "--runs" => asked.runs = Some(behind(&mut words, "--runs needs a number")?),
            "--boards" => asked.wish.boards = Some(behind(&mut words, "--boards needs a number")?),
            "--winner" => asked.wish.winners.push(behind(&mut words, "--winner needs a behaviour's name")?),
            "--frame" => asked.frame = Some(steps_of_a_frame(&mut words)?),
            "--join" => asked.join = Some(words.next().ok_or(Failure::Usage("--join needs a file".to_string()))?),
            "--param" => {
                let given = words.next().and_then(|w| script::assignment(&w));
                asked.given.push(given.ok_or(Failure::Usage("--param needs NAME=VALUE".to_string()))?);
            }
            _ if word.starts_with("--") => return Err(Failure::Usage(format!("no option {word}"))),
            _ => asked.files.push(word),
        }
    }
    Ok(asked)
}

fn print(text: &str) -> Result<(), Failure> {
    let mut out = std::io::stdout();
    match paint::wanted(&out) {
        true => Ok(out.write_all(paint::painted(text).as_bytes())?),
        false => Ok(out.write_all(text.as_bytes())?),
    }
}

/// The sheet that a command is about, joined with another where that is asked, its parameters filled in.
fn load(asked: &Asked) -> Result<SheetFile, Failure> {
    let mut file = SheetFile::load(&asked.files[0])?;
    if let Some(other) = &asked.join {
        file = together(&file, other, asked.by_name)?;
        file::same_names(&file)?;
    }
    for (name, value) in &asked.given {
        if !file.set(name, *value) {
            return Err(Failure::input(format!("{}: no parameter {name} is declared", file.path)));
        }
    }
    Ok(file)
}

/// A sheet joined with another, by number or by name.
fn together(first: &SheetFile, other: &str, by_name: bool) -> Result<SheetFile, Failure> {
    let mut second = SheetFile::load(other)?;
    if by_name {
        second = second.in_order_of(first, Order::Join)?;
    }
    file::joined(first, &second)
}

/// What a join makes of unlike names, beside what a command prints.
fn warn(file: &SheetFile) {
    file.warnings.iter().for_each(|warning| eprintln!("{}: warning: {warning}", file.path));
}

fn build(asked: &Asked) -> Result<(), Failure> {
    let output = asked.output(Kind::Sheet, &[])?;
    let file = load(asked)?;
    file.compile()?;
    warn(&file);
    written(output, file.sheet.bytes())
}

fn written(output: Output, bytes: &[u8]) -> Result<(), Failure> {
    output.write(bytes)?;
    print(&format!("{}: {}\n", output.path, several(bytes.len() as u64, "byte", "bytes")))
}

fn show(asked: &Asked) -> Result<(), Failure> {
    let path = &asked.files[0];
    let bytes = file::bytes_of(path)?;
    if !bytes.is_empty() && bytes.iter().all(|b| b.is_ascii_graphic() || b.is_ascii_whitespace()) {
        return Err(Failure::input(format!("{path}: is text already, not a sheet's bytes")));
    }
    let file = SheetFile::of_bytes(path, bytes)?;
    file.compile()?;
    print(&file.text()?)
}

fn join(asked: &Asked) -> Result<(), Failure> {
    let output = asked.output(Kind::Sheet, &[])?;
    let both = together(&SheetFile::load(&asked.files[0])?, &asked.files[1], asked.by_name)?;
    warn(&both);
    written(output, both.sheet.bytes())
}

fn check(asked: &Asked) -> Result<(), Failure> {
    let how = check::Asked { wish: asked.wish.clone(), json: asked.json, frame: asked.frame };
    let done = load(asked).and_then(|file| check::check(&file, &how));
    if let (Err(failure), true) = (&done, asked.json) {
        print(&check::json_faults(&asked.files[0], failure))?;
    }
    let (words, loose) = done?;
    print(&words)?;
    match loose.filter(|_| asked.strict) {
        Some(why) => Err(Failure::Input(why)),
        None => Ok(()),
    }
}

fn differ(asked: &Asked) -> Result<(), Failure> {
    let file = load(asked)?;
    let default =
        || std::path::Path::new(&asked.files[0]).with_extension("").to_string_lossy().into_owned() + "-differ";
    let out = asked.files.get(1).cloned().unwrap_or_else(default);
    let reads: Vec<&str> = asked.files.iter().take(1).chain(&asked.join).map(String::as_str).collect();
    print(&differ::written(&file, &asked.wish, &differ::To { out: &out, reads: &reads, force: asked.force })?)
}

/// A small sheet and its script.
const FIRST_SHEET: &str = include_str!("new.sheet");
const FIRST_SCRIPT: &str = include_str!("new.play");

fn new(asked: &Asked) -> Result<(), Failure> {
    let sheet = asked.files[0].clone();
    let script = std::path::Path::new(&sheet).with_extension("play").to_string_lossy().into_owned();
    let there = [&sheet, &script].into_iter().find(|path| std::fs::symlink_metadata(path).is_ok());
    if let Some(there) = there {
        return Err(Failure::Usage(format!("{there} is there already, and nothing is written over")));
    }
    for (path, text) in [(&sheet, FIRST_SHEET), (&script, FIRST_SCRIPT)] {
        let made = std::fs::OpenOptions::new().write(true).create_new(true).open(path);
        made.and_then(|mut file| file.write_all(text.as_bytes()))
            .map_err(|e| Failure::input(format!("{path}: cannot be written: {e}")))?;
    }
    print(&format!("{sheet} and {script} are written; next: setter check {sheet}, setter play {sheet} {script}\n"))
}

/// How many runs a search makes where none are named.
const RUNS: u64 = 10_000;

fn search(asked: &Asked) -> Result<(), Failure> {
    let file = load(asked)?;
    let (told, found) = trial::search(&file, asked.seed.unwrap_or(1), asked.runs.unwrap_or(RUNS))?;
    print(&told)?;
    if found && asked.strict {
        return Err(Failure::Input(format!("{}: phones end apart, and the search is strict", file.path)));
    }
    Ok(())
}

/// What is played, at the head of what is printed.
fn head(file: &SheetFile) -> String {
    format!("{}{}", file.path, file.with_values())
}

fn play(asked: &Asked) -> Result<(), Failure> {
    let file = load(asked)?;
    let script = Script::load(&asked.files[1], &asked.given)?;
    play::names_known(&file, &script)?;
    warn(&file);
    let column = asked.frame.map_or(String::new(), |budget| format!("   frame of {}", wording::long(budget)));
    print(&format!("{}\n  step{column}\n", head(&file)))?;
    play::play(&file, &script, &mut |entry| {
        let frame = asked.frame.map_or(String::new(), |budget| format!("{:6}  ", entry.step.div_ceil(budget)));
        let words = wording::folded(&entry.words, COLUMNS - frame.len(), MARGIN + frame.len() + 2);
        print(&format!("{:6}  {frame}{words}\n", entry.step))
    })?;
    Ok(())
}

fn timeline(asked: &Asked) -> Result<(), Failure> {
    let file = load(asked)?;
    let script = Script::load(&asked.files[1], &asked.given)?;
    let output = asked.output(Kind::Picture, &script.sheets())?;
    play::names_known(&file, &script)?;
    let mut marks = vec![];
    let steps = play::play(&file, &script, &mut |entry| {
        marks.extend(entry.mark.map(|mark| (entry.step, mark)));
        Ok(())
    })?;
    let panel = timeline::Panel { title: String::new(), file: &file, marks, steps };
    output.write(timeline::draw(&head(&file), &[panel], asked.frame).as_bytes())
}

/// A command that there is none of, with the one that it may be meant for.
fn no_command(word: &str) -> Failure {
    let near = play::perhaps(word, COMMANDS.iter().map(|(name, ..)| *name));
    Failure::Usage(format!("no command {word}{near}\n\n{HELP}"))
}

fn version() -> String {
    let engine = poqashem::version();
    let own = env!("CARGO_PKG_VERSION");
    format!("setter {own}, on the engine's interface {} and layout {}\n", engine.interface, engine.layout)
}

fn run(mut words: impl Iterator<Item = String>) -> Result<(), Failure> {
    let command = words.next().ok_or(Failure::Usage(format!("no command is named\n\n{HELP}")))?;
    if ["help", "--help", "-h"].contains(&command.as_str()) {
        let Some(about) = words.next() else { return print(HELP) };
        let known = COMMANDS.iter().find(|(name, ..)| *name == about);
        return print(known.ok_or_else(|| no_command(&about))?.1);
    }
    if ["--version", "-V"].contains(&command.as_str()) {
        return print(&version());
    }
    let Some((name, help, files)) = COMMANDS.iter().find(|(name, ..)| *name == command) else {
        return Err(no_command(&command));
    };
    let wrong = |why: String| Failure::Usage(format!("{why}\n\n{help}"));
    let asked = asked(words).map_err(|failure| match failure {
        Failure::Usage(why) => wrong(why),
        other => other,
    })?;
    if asked.help {
        return print(help);
    }
    if asked.files.iter().chain(&asked.join).filter(|path| *path == file::STANDARD_INPUT).count() > 1 {
        return Err(wrong("- is standard input, which is read once".to_string()));
    }
    let more = usize::from(*name == "differ" && asked.files.len() == 2);
    if asked.files.len() != *files + more {
        return Err(wrong(format!("{name} names {}", several(*files as u64, "file", "files"))));
    }
    match *name {
        "check" => check(&asked),
        "differ" => differ(&asked),
        "new" => new(&asked),
        "try" => search(&asked),
        "names" => print(&constants::written(&load(&asked)?, asked.language.as_deref().unwrap_or("c"))?),
        "build" => build(&asked),
        "show" => show(&asked),
        "join" => join(&asked),
        "play" => play(&asked),
        _ => timeline(&asked),
    }
}

fn main() -> ExitCode {
    // a name that is no text cannot be a word of ours, but may be a file's: it is then not found
    match run(std::env::args_os().skip(1).map(|word| word.to_string_lossy().into_owned())) {
        Ok(()) => ExitCode::SUCCESS,
        Err(failure) => failure.tell(),
    }
}
