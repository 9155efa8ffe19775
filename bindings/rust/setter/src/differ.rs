//! Two phones that end apart, as files: what each of them does as a script, and a picture of both.
use crate::apart::{Act, Apart};
use crate::failure::Failure;
use crate::file::SheetFile;
use crate::output::{Kind, Output, SCRIPT};
use crate::phones::{Answer, Phones, Wish};
use crate::play;
use crate::script::Script;
use crate::timeline::{self, Panel};
use poqashem::{Behaviour, Event};

/// Where it goes.
pub struct To<'a> {
    /// What the names of all files begin with.
    pub out: &'a str,
    /// The files that are read.
    pub reads: &'a [&'a str],
    pub force: bool,
}

/// Writes the files, and says what they are.
pub fn written(file: &SheetFile, wish: &Wish, to: &To) -> Result<String, Failure> {
    file.all_given()?;
    let table = file.compile()?;
    let phones = Phones::of(file, &table, wish)?;
    let told: String = phones.lines().iter().map(|line| format!("{line}\n")).collect();
    let Some(found) = phones.parted() else {
        let nothing = if phones.answer == Answer::Apart { "nothing is written\n" } else { "" };
        return Ok(format!("{}: {told}{nothing}", file.path));
    };
    let paths = [1, 2].map(|k| format!("{}-{k}.play", to.out));
    let picture = format!("{}.svg", to.out);
    let scripts = [0, 1].map(|phone| script(&phones, found, phone));
    let output = |path, kind| Output { path, kind, force: to.force };
    let outputs = [output(&paths[0], Kind::Script), output(&paths[1], Kind::Script), output(&picture, Kind::Picture)];
    outputs.iter().try_for_each(|one| one.check(to.reads.iter().copied()))?;
    let drawn = drawn(file, found, &paths, &scripts)?;
    for (one, text) in outputs.iter().zip([&scripts[0], &scripts[1], &drawn]) {
        one.write(text.as_bytes())?;
    }
    Ok(format!("{}: {told}{}, {} and {picture} are written\n", file.path, paths[0], paths[1]))
}

/// What a phone does, as a script: the same events in a row by `repeat`, and at its end what the board must show.
fn script(phones: &Phones, found: &Apart, phone: usize) -> String {
    let how = ["runs to idle after each event", "takes in the last two before it makes a step"][phone];
    let mut out = format!("{SCRIPT} {}: phone {}, which {how}\n", phones.file.path, phone + 1);
    let sent = |e: Event| match phones.sender(e) {
        poqashem::Player::HOST => format!("send {}", phones.file.event(e)),
        poqashem::Player(n) => format!("send {} from {n}", phones.file.event(e)),
    };
    let acts = &found.lists()[phone];
    let mut k = 0;
    while k < acts.len() {
        let Act::Send(event) = acts[k] else {
            out += "run\n";
            k += 1;
            continue;
        };
        let row = acts[k..].chunks(2).take_while(|pair| **pair == [Act::Send(event), Act::Run]).count();
        if row > 1 {
            out += &format!("repeat {row} {}, run\n", sent(event));
            k += 2 * row;
        } else {
            out += &format!("{}\n", sent(event));
            k += 1;
        }
    }
    let differs = (0..).map(Behaviour).zip(found.boards[0].iter().zip(&found.boards[1])).filter(|(_, (a, b))| a != b);
    let expected = differs.map(|(b, _)| format!(" {} {}", phones.file.behaviour(b), found.boards[phone][b.0 as usize]));
    out + "board\nexpect" + &expected.collect::<String>() + "\n"
}

/// Both scripts, played, as one picture.
fn drawn(file: &SheetFile, found: &Apart, paths: &[String; 2], scripts: &[String; 2]) -> Result<String, Failure> {
    let mut panels = vec![];
    for (k, text) in scripts.iter().enumerate() {
        let script = Script::read(&paths[k], text.as_bytes().to_vec(), &[])?;
        let mut marks = vec![];
        let steps = play::play(file, &script, &mut |entry| {
            marks.extend(entry.mark.map(|mark| (entry.step, mark)));
            Ok(())
        })?;
        let how = text.lines().next().and_then(|line| line.split_once(": ")).map_or("", |(_, how)| how);
        panels.push(Panel { title: how.to_string(), file, marks, steps });
    }
    let at = found.differs();
    let [one, other] = [0, 1].map(|k| found.boards[k][at.0 as usize]);
    let title = format!("{}: two phones end apart, {} is {one} and {other}", file.path, file.behaviour(at));
    Ok(timeline::draw(&title, &panels, None))
}
