//! The program as it is called: what it writes over, what it shows of a fault, what it says where it is called wrongly.
use std::path::{Path, PathBuf};
use std::process::{Command, Output};

const SHEET: &str = "param gain\nevent hit rank 1\nactive score = 0\n  on hit: score + 10\n";
const OTHER: &str = "event hit rank 1\nactive lives = 3\n  on hit: lives - 1\n";
const SCRIPT: &str = "send hit\nrun\nmend other.sheet\nboard\n";
const TEXTS: [(&str, &str); 3] = [("one.sheet", SHEET), ("other.sheet", OTHER), ("one.play", SCRIPT)];

/// A folder of its own with two sheets and a script.
struct Room(PathBuf);

impl Room {
    fn new(name: &str) -> Room {
        let path = Path::new(env!("CARGO_TARGET_TMPDIR")).join(format!("{name}-{}", std::process::id()));
        let _ = std::fs::remove_dir_all(&path);
        std::fs::create_dir_all(&path).unwrap();
        let room = Room(path);
        TEXTS.iter().for_each(|(name, text)| room.put(name, text));
        room
    }

    fn put(&self, name: &str, bytes: impl AsRef<[u8]>) {
        std::fs::write(self.0.join(name), bytes).unwrap();
    }

    fn get(&self, name: &str) -> Vec<u8> {
        std::fs::read(self.0.join(name)).unwrap()
    }

    fn setter(&self, words: &str) -> Output {
        let program = env!("CARGO_BIN_EXE_setter");
        Command::new(program).args(words.split(' ')).current_dir(&self.0).output().unwrap()
    }

    /// Its names and what they hold, links followed.
    fn all(&self) -> Vec<(PathBuf, Vec<u8>)> {
        let paths = std::fs::read_dir(&self.0).unwrap().map(|entry| entry.unwrap().path());
        let mut all: Vec<_> = paths.map(|path| (path.clone(), std::fs::read(path).unwrap())).collect();
        all.sort();
        all
    }

    /// It is turned down as a wrong call, says so, and leaves every file as it was.
    fn refused(&self, words: &str, why: &str) {
        let before = self.all();
        let done = self.setter(words);
        assert_eq!((done.status.code(), said(&done)), (Some(2), format!("setter: {why}\n")), "setter {words}");
        assert!(self.all() == before, "setter {words} changed a file");
        assert!(done.stdout.is_empty(), "setter {words} prints something");
    }

    fn done(&self, words: &str) -> String {
        let done = self.setter(words);
        assert_eq!((done.status.code(), said(&done)), (Some(0), String::new()), "setter {words}");
        String::from_utf8(done.stdout).unwrap()
    }
}

impl Drop for Room {
    fn drop(&mut self) {
        let _ = std::fs::remove_dir_all(&self.0);
    }
}

fn said(done: &Output) -> String {
    String::from_utf8(done.stderr.clone()).unwrap()
}

const WAY: &str = "name another file, or add --force";

#[test]
fn no_input_is_written_over() {
    let room = Room::new("inputs");
    let over = |path: &str| format!("{path} is read, and would be written over: {WAY}");
    room.refused("build one.sheet one.sheet", &over("one.sheet"));
    room.refused("build one.sheet other.sheet --join other.sheet", &over("other.sheet"));
    room.refused("join one.sheet other.sheet other.sheet", &over("other.sheet"));
    room.refused("timeline one.sheet one.play one.play", &over("one.play"));
    // by another name, and the sheet that the script changes to
    let named = |path: &str, other: &str| format!("{path} is read as {other}, and would be written over: {WAY}");
    room.refused("build one.sheet ./one.sheet", &named("./one.sheet", "one.sheet"));
    room.refused("timeline one.sheet one.play other.sheet", &over("other.sheet"));
    // a sheet's bytes and a picture, which else may be written over
    room.done("build one.sheet one.bin");
    room.refused("join one.bin other.sheet one.bin", &over("one.bin"));
}

#[cfg(unix)]
#[test]
fn no_input_is_written_over_by_a_link() {
    let room = Room::new("links");
    room.done("build one.sheet one.bin");
    std::os::unix::fs::symlink("one.bin", room.0.join("soft.bin")).unwrap();
    std::fs::hard_link(room.0.join("one.bin"), room.0.join("hard.bin")).unwrap();
    for path in ["soft.bin", "hard.bin"] {
        let why = format!("{path} is read as one.bin, and would be written over: {WAY}");
        room.refused(&format!("build one.bin {path}"), &why);
    }
    // what a link leads to is written, and the link stays
    let before = room.get("one.bin");
    room.done("build other.sheet soft.bin");
    assert!(room.0.join("soft.bin").is_symlink() && room.get("one.bin") != before);
}

#[test]
fn nothing_of_another_kind_is_written_over() {
    let room = Room::new("kinds");
    let sheet = |path: &str| format!("{path} is there and is not a sheet's bytes: {WAY}");
    let picture = |path: &str| format!("{path} is there and is not a picture (SVG): {WAY}");
    room.refused("build one.sheet other.sheet", &sheet("other.sheet"));
    room.refused("join one.sheet one.sheet other.sheet", &sheet("other.sheet"));
    room.done("build one.sheet one.bin");
    room.put("notes", [1, 2, 3]);
    room.put("long", vec![1; 100_000]);
    room.refused("build one.sheet notes", &sheet("notes"));
    room.refused("build one.sheet long", &sheet("long"));
    room.refused("timeline one.sheet one.play one.bin", &picture("one.bin"));
    room.put("two.play", "send hit\n");
    room.refused("timeline one.sheet one.play two.play", &picture("two.play"));

    // of the kind: a sheet's bytes over a sheet's, a picture over a picture, either over a file of no bytes
    room.put("empty", "");
    room.done("build other.sheet one.bin");
    room.done("build other.sheet empty");
    assert!(room.get("one.bin") == room.get("empty"));
    room.put("empty", "");
    room.done("timeline one.sheet one.play empty");
    room.done("timeline one.sheet one.play empty");
    assert!(room.get("empty").starts_with(b"<svg"));
}

#[test]
fn forced() {
    let room = Room::new("forced");
    room.done("build one.sheet other.sheet --force");
    let bytes = room.get("other.sheet");
    room.done("build one.sheet one.sheet --force");
    assert!(room.get("one.sheet") == bytes && bytes[0] < 7);
    room.put("other.sheet", OTHER);
    room.done("timeline --force other.sheet one.play one.play");
    assert!(room.get("one.play").starts_with(b"<svg"));
}

/// The line and the mark under it, whatever bytes it has.
#[test]
fn a_faulty_line_is_shown() {
    let room = Room::new("faults");
    let long = format!("passive p = 1 + scor{}+ 1", " ".repeat(1_000));
    let cases: [(&[u8], &str, &str); 4] = [
        (
            "active score = 0\n  # \u{e4}\npassive p = scor # \u{e4}".as_bytes(),
            "passive p = scor # \u{e4}",
            "            ^",
        ),
        ("passive gr\u{f6}\u{df}e = 1".as_bytes(), "passive gr\u{f6}\u{df}e = 1", "          ^"),
        (b"passive p = 1 \xff\x00", "passive p = 1 \\xff\\x00", "              ^"),
        (long.as_bytes(), "passive p = 1 + scor ", "                ^"),
    ];
    for (text, line, under) in cases {
        room.put("slip.sheet", text);
        let done = room.setter("check slip.sheet");
        let said = said(&done);
        let lines: Vec<&str> = said.lines().collect();
        assert!(done.status.code() == Some(1) && lines.len() >= 3, "{said}");
        assert!(lines[1].starts_with(&format!("    {line}")) && lines[1].len() < 220, "{said}");
        assert_eq!(lines[2], format!("    {under}"), "{said}");
    }
}

#[test]
fn versions_and_help() {
    let room = Room::new("words");
    let version = format!("setter {}, on the engine's interface 1 and layout 1\n", env!("CARGO_PKG_VERSION"));
    assert_eq!(room.done("--version"), version);
    assert_eq!(room.done("-V"), version);
    assert!(room.done("help check").starts_with("setter check FILE"));
    assert!(room.done("help").starts_with("setter: sheets written as text"));
    for words in ["help chek", "chek one.sheet", "--help chek"] {
        let done = room.setter(words);
        assert_eq!(done.status.code(), Some(2), "setter {words}");
        assert!(said(&done).starts_with("setter: no command chek; is it check?\n"), "{}", said(&done));
        assert!(done.stdout.is_empty(), "setter {words}");
    }
    let done = room.setter("help something");
    assert_eq!(done.status.code(), Some(2));
    assert!(said(&done).starts_with("setter: no command something\n"), "{}", said(&done));
}

/// A parameter that no formula names needs no value; one that is named does.
#[test]
fn parameters_that_are_not_used() {
    let room = Room::new("params");
    room.put("one.play", "send hit\nrun\nboard\n");
    assert!(room.done("play one.sheet one.play").contains("board: score 10\n"));
    room.put("both.sheet", SHEET.replace("+ 10", "+ more").replace("param gain", "param gain param more"));
    let done = room.setter("play both.sheet one.play");
    let why = "both.sheet: the parameter more has no default: give it a value with --param more=VALUE\n";
    assert_eq!((done.status.code(), said(&done).as_str()), (Some(1), why));
    let played = room.done("play both.sheet one.play --param more=5");
    assert!(played.starts_with("both.sheet with more = 5\n") && played.contains("board: score 5\n"), "{played}");
    // of a sheet's bytes too, and of one that a script changes to
    room.done("build one.sheet one.bin");
    room.put("change.play", "mend one.bin\nsend e0\nrun\nboard\n");
    assert!(room.done("play one.bin change.play").contains("board: b0 10\n"));
    room.put("change.play", "mend one.sheet\nmend both.sheet\n");
    assert_eq!(room.setter("play one.sheet change.play").status.code(), Some(1));
}

/// A slip, where its fault is told, and the last line of what is said.
const SLIPS: [(&str, &str, &str); 34] = [
    ("evnet e rank 1", "1:1", "is it `event`?"),
    ("{}actve b = 0", "4:1", "is it `active`?"),
    ("{}passive p = (a + 1\nactive b = 0", "5:1", "the `(` in line 4, column 13, is still open"),
    ("{}passive p = -a", "4:14", "`-` stands before a number or between two values: write `0 - a`"),
    ("{}passive p = if(a = 1, 2, 3)", "4:18", "`==` compares; `=` only gives a declaration its value"),
    (
        "{}passive p = if(a, 1)",
        "4:20",
        "`if` has three: `if(condition, value if so, value if not)`; one that stays is its own name",
    ),
    ("event e rank 1\nparam p", "2:1", "parameters stand first: put this line above the first `event`"),
    (
        "{}event f rank 1",
        "4:1",
        "events stand before behaviours: put this line above the first `active`, `passive` or `row`",
    ),
    (
        "param lives = 3\nactive left = lives",
        "2:15",
        "a start value is a number: to begin with another, set it by an event, as in `on begin: lives`",
    ),
    ("row lamp[4] = 0\npassive p = lamp[i]", "2:18", "a cell's place is a number, as in `lamp[3]`"),
    ("event on rank 1", "1:7", "`on` is a reserved word: take another name, such as `on_`"),
    (
        "{}passive p = e + 1",
        "4:13",
        "`e` is an event, which has no value: in a formula stand behaviours, parameters and numbers; let an active \
         count it",
    ),
    (
        "{}passive p = a+a+a+a+a+a+a+a+a+a+a+a+a+a+a+a+a",
        "4:44",
        "a long sum is one operator within the other: put halves in brackets, or give a part to a passive of its own",
    ),
    ("event e rank 1 from 1, 2", "1:22", "players stand one behind the other without commas, as in `from 1 2`"),
    ("event e rank 1;", "1:15", "a declaration ends where the next begins: leave it out"),
    ("{}passive p = a & 1", "4:15", "write `&&`"),
    ("{}passive p = a and 1", "4:15", "write `&&`"),
    ("{}passive p = a | 1", "4:15", "write `||`"),
    ("{}passive p = a or 1", "4:15", "write `||`"),
    (
        "{}passive p = a % 2",
        "4:15",
        "there is no `%`: of numbers that are not negative, the remainder of a by b is `a - a / b * b`",
    ),
    ("{}passive p = a ** 2", "4:16", "there are no powers: write `a * a`"),
    ("{}passive p = 1.5", "4:14", "numbers are whole: count in tenths, say"),
    ("{}passive p = max(a, 3)", "4:16", "there is no `max`: write `if(a > b, a, b)`"),
    ("{}passive p = (a + 1))", "4:20", "no `(` is open here"),
    ("{}passive p = a \u{2013} 1", "4:15", "`\u{2013}` is an en dash (U+2013): write `-`"),
    ("{}passive p = a \u{d7} 2", "4:15", "`\u{d7}` is a multiplication sign (U+00D7): write `*`"),
    (
        "{}passive p = 1\n  on e: 2",
        "5:3",
        "a passive has no handlers, since it follows its formula at all times: make it an `active`, or leave the \
         handler out",
    ),
    (
        "active gr\u{f6}\u{df}e = 0",
        "1:10",
        "`\u{f6}` (U+00F6) cannot stand in a name: names have a to z, A to Z, digits and `_`; comments may have any \
         letter",
    ),
    ("active\u{a0}a = 0", "1:7", "this is a no-break space (U+00A0): write a plain space"),
    (
        "\u{feff}event e rank 1",
        "1:1",
        "the file begins with a byte order mark (EF BB BF): save it as UTF-8 without one",
    ),
    ("e\0v\0e\0", "1:1", "the file is UTF-16: save it as UTF-8 or ASCII"),
    ("event e rank = 2", "1:14", "an event is `event NAME rank 0` to `rank 15`: the higher rank breaks in"),
    ("event e rank 1 from host", "1:21", "players are numbers: 0 is the host, 1 to 7 play"),
    ("// hello", "1:1", "a comment begins with `#`"),
];

#[test]
fn slips_are_told_with_what_to_do() {
    let room = Room::new("slips");
    for (text, place, hint) in SLIPS {
        room.put("slip.sheet", text.replace("{}", "event e rank 1\nactive a = 0\n  on e: a + 1\n"));
        let done = room.setter("check slip.sheet");
        let said = said(&done);
        assert_eq!(done.status.code(), Some(1), "{text}");
        assert!(said.starts_with(&format!("slip.sheet:{place}: ")), "{said}");
        assert_eq!(said.lines().last().map(str::trim), Some(hint), "{said}");
    }
}

/// Faults in unlike declarations are told together, a circle with its lines, bytes by their field.
#[test]
fn all_that_is_at_fault() {
    let room = Room::new("all");
    let fault = |text: &str| {
        room.put("slip.sheet", text);
        said(&room.setter("check slip.sheet"))
    };
    let faults = fault("event e rank 1\nactive a = 0\n  on e: b % 2\n  on f: 1\npassive c = if(a, 1)\n");
    let places: Vec<&str> = faults.lines().filter_map(|l| l.strip_prefix("slip.sheet:")?.split(": ").next()).collect();
    assert_eq!(places, ["3:11", "4:6", "5:20"], "{faults}");
    let circle = fault("event e rank 1\nactive a = 1\n  on e: if(p, a + 1, 0)\npassive p = a > 0\n");
    let lines: Vec<&str> = circle.lines().collect();
    assert_eq!(
        lines[1..4],
        ["    2 active a = 1", "    3   on e: if(p, a + 1, 0)", "    4 passive p = a > 0"],
        "{circle}"
    );
    assert!(lines[4].starts_with("    write the formula of `p` for its name in the handlers of `a`"), "{circle}");
    for way in ["if(a > 0, a + 1, 0)", "if(p, a + 1, 0)"] {
        let later = if way.contains('p') { " later" } else { "" };
        room.put("slip.sheet", format!("event e rank 1\nactive a = 1\n  on e{later}: {way}\npassive p = a > 0\n"));
        room.done("check slip.sheet");
    }
    room.put("slip.bin", [1, 0, 1, 1, 1, 0, 1, 32]);
    let bytes = said(&room.setter("check slip.bin"));
    assert!(bytes.ends_with("; in event 1, which begins at byte 4\n"), "{bytes}");
    room.put("slip.play", "\u{feff}send hit");
    assert!(
        said(&room.setter("play one.sheet slip.play")).starts_with("slip.play:1: the file begins with a byte order")
    );
}

#[test]
fn what_is_hardly_meant() {
    let room = Room::new("warnings");
    let text =
        "param x\nevent e rank 1\nevent f rank 1\nactive a = 0\n  on e: a\nactive h = 1 seen by nobody\n  on e: \
                if(1, h, 2)\npassive p = 0 < a < 5\n";
    room.put("odd.sheet", text);
    let told = room.done("check odd.sheet");
    let told: Vec<&str> = told.lines().skip_while(|l| !l.starts_with("  warnings")).map(|l| &l[16..]).collect();
    let due = [
        "1:7: no formula has the parameter `x`",
        "3:7: nothing handles event `f`: it changes nothing",
        "5:6: this handler writes `a` to itself: leave it out",
        "6:8: `h` is seen by nobody, and no other behaviour reads it",
        "7:6: a condition here is always true",
        "8:19: `a < b < c` compares the answer 0 or 1 of the first with c: write `a < b && b < c`",
    ];
    assert_eq!(told, due);
}

/// A change of sheets and a join go by number, with a warning where a number has two names, or by name.
#[test]
fn numbers_and_names() {
    let room = Room::new("names");
    let events = "event hit rank 1\nevent end rank 1\n";
    let [score, over] = ["active score = 0\n  on hit: if(over, score, score + 10)\n", "active over = 0\n  on end: 1\n"];
    room.put("old.sheet", format!("{events}{score}{over}"));
    room.put("new.sheet", format!("event end rank 1\nevent hit rank 1\n{over}passive won = score > 5\n{score}"));
    room.put("number.play", "send hit end\nrun\nmend new.sheet\nboard\n");
    let played = room.done("play old.sheet number.play");
    for line in [
        "warning: behaviour 0 was score and is over now: values go by number",
        "warning: behaviour 1 was over and is won now: values go by number",
        "warning: event 0 was hit and is end now: what is in hand goes by number",
        "board: over 10, won 0, score 0",
    ] {
        assert!(played.contains(line), "{line}\n{played}");
    }
    room.put("name.play", "send hit end\nrun\nmend new.sheet by name\nboard\n");
    let played = room.done("play old.sheet name.play");
    assert!(played.contains("board: score 10, over 1, won 1\n") && !played.contains("warning"), "{played}");
    // only where it is at hand: a behaviour that is gone, a sheet's bytes
    let gone = |text: &str, why: &str| {
        room.put("slip.play", text);
        let done = room.setter("play old.sheet slip.play");
        assert_eq!((done.status.code(), said(&done).as_str(), done.stdout.len()), (Some(1), why, 0));
    };
    gone("mend other.sheet by name", "slip.play:1: other.sheet: has no score, whose value old.sheet keeps\n");
    room.done("build new.sheet new.bin");
    gone("mend new.bin by name", "slip.play:1: old.sheet and new.bin go together by name only where both are text\n");

    // of two sheets joined, the events' names
    room.put("gems.sheet", "event end rank 1\nevent hit rank 1\nactive gems = 0\n  on end: gems + 1\n");
    let told = room.done("check old.sheet --join gems.sheet");
    let unlike =
        "event 0 is hit in old.sheet and end in gems.sheet, and is one in the join: events are shared by number";
    assert!(told.contains(&format!("  warnings      {unlike}\n")), "{told}");
    let done = room.setter("join old.sheet gems.sheet both.bin");
    assert!(done.status.success() && said(&done).contains(&format!(": warning: {unlike}\n")), "{}", said(&done));
    room.put("both.play", "send hit hit end\nrun\nboard gems\n");
    assert!(!room.done("check old.sheet --join gems.sheet --by-name").contains("warnings"));
    assert!(room.done("play old.sheet both.play --join gems.sheet --by-name").contains("board: gems 1\n"));
    room.put("one.sheet", "param gain\nevent hit rank 1\n");
    room.put("gem.sheet", "param gem\nevent hit rank 1\nactive gems = 0\n  on hit: gems + gem\n");
    let why = "parameter 0 is gain in one.sheet and gem in gem.sheet: a join shares parameters by number: declare the \
               parameters of one.sheet first in gem.sheet, in its order\n";
    assert_eq!(said(&room.setter("check one.sheet --join gem.sheet")), why);
    assert!(room.done("check one.sheet --join gem.sheet --by-name").contains("parameters         2 of 8"));
}

const APART: &str =
    "event hit rank 2\nevent late rank 9\nactive over = 0\n  on late: 1\nactive points = 0\n  on hit: if(over, \
                     points, points + 10)\n";

/// Ends with 1 where phones may part or something leaks, and only when it is asked.
#[test]
fn strict() {
    let room = Room::new("strict");
    let strict = |text: &str, why: &str| {
        room.put("one.sheet", text);
        room.done("check one.sheet");
        let done = room.setter("check one.sheet --strict");
        let due = if why.is_empty() { (Some(0), why.to_string()) } else { (Some(1), format!("one.sheet: {why}\n")) };
        assert_eq!((done.status.code(), said(&done)), due);
        assert!(String::from_utf8_lossy(&done.stdout).starts_with("one.sheet: accepted\n"));
    };
    strict(APART, "phones may end apart, and the check is strict");
    strict(&APART.replace("rank 9", "rank 2"), "");
    strict("active a = 0 seen by 1\npassive b = a\n", "something may leak, and the check is strict");
    strict(
        &format!("{APART}active a = 0 seen by 1\npassive b = a\n"),
        "phones may end apart and something may leak, and the check is strict",
    );
}

/// The output of a command that reads this on standard input.
fn piped(room: &Room, words: &str, text: &str) -> Output {
    use std::io::Write;
    let mut command = Command::new(env!("CARGO_BIN_EXE_setter"));
    let pipe = std::process::Stdio::piped;
    let command = command.args(words.split(' ')).current_dir(&room.0).stdin(pipe()).stdout(pipe()).stderr(pipe());
    let mut child = command.spawn().unwrap();
    child.stdin.take().unwrap().write_all(text.as_bytes()).unwrap();
    child.wait_with_output().unwrap()
}

#[test]
fn json_and_standard_input() {
    let room = Room::new("json");
    let done = piped(&room, "check - --json", APART);
    let told = String::from_utf8(done.stdout).unwrap();
    assert_eq!(done.status.code(), Some(0));
    for part in [
        "{\"file\":\"-\",\"accepted\":true,",
        "\"events\":[{\"name\":\"hit\",\"rank\":2,\"instructions\":13},",
        "\"agree\":false,\"apart\":true,\"pairs\":[{\"first\":\"hit\",\"second\":\"late\",\"share\":\"over\",",
        "\"groups\":[[\"hit\",\"late\"]],\"equal\":[\"over\"],\"search\":{\"boards\":1,\"all\":false,",
        "\"slow\":\"hit\",\"urgent\":\"late\",\"boards\":[[1,10],[1,0]],\"differs\":\"points\"}},",
        "\"leak\":null}],\"warnings\":[]}\n",
    ] {
        assert!(told.contains(part), "{part}\n{told}");
    }
    let done = piped(&room, "check --json -", "active a = 0\npassive p = a % 2\nactive a = 1\n");
    let told = String::from_utf8(done.stdout).unwrap();
    assert_eq!((done.status.code(), told.lines().count()), (Some(1), 1));
    let faults = ["\"faults\":[{\"kind\":31,\"line\":2,\"column\":15,", "{\"kind\":35,\"line\":3,\"column\":8,"];
    assert!(faults.iter().all(|fault| told.contains(fault)), "{told}");
    // a script too, but one of them
    let done = piped(&room, "play one.sheet -", "send hit\nrun\nboard\n");
    assert!(String::from_utf8(done.stdout).unwrap().contains("board: score 10\n"));
    let done = piped(&room, "play - -", "");
    assert!(said(&done).starts_with("setter: - is standard input, which is read once\n"), "{}", said(&done));
    // no colours where there is no terminal
    assert!(!told.contains('\u{1b}'));
}

#[test]
fn a_sheet_to_begin_with() {
    let room = Room::new("new");
    room.done("new first.sheet");
    assert!(room.done("check first.sheet --strict").contains("agree"));
    assert!(room.done("play first.sheet first.play").contains("won is 1, as expected\n"));
    room.refused("new first.sheet", "first.sheet is there already, and nothing is written over");
    std::fs::remove_file(room.0.join("first.sheet")).unwrap();
    room.refused("new first.sheet", "first.play is there already, and nothing is written over");
}

/// Two phones are found where they can end apart, the same ones by the same seed, and their scripts lead there.
#[test]
fn two_phones_at_random() {
    let room = Room::new("try");
    room.put("apart.sheet", APART);
    let told = room.done("try apart.sheet");
    assert!(
        told.starts_with("apart.sheet: found in run ") && told.ends_with("the first that differs is points\n"),
        "{told}"
    );
    assert_eq!(told, room.done("try apart.sheet --seed 1 --runs 10000"));
    assert_eq!(room.setter("try apart.sheet --strict").status.code(), Some(1));
    for phone in told.split("phone ").skip(1) {
        let lines: Vec<&str> = phone.lines().filter_map(|line| line.strip_prefix("  ")).collect();
        let (board, script) = lines.split_last().unwrap();
        room.put("phone.play", format!("{}\nboard\n", script.join("\n")));
        assert!(room.done("play apart.sheet phone.play").contains(board), "{phone}");
    }
    room.put("apart.sheet", APART.replace("rank 9", "rank 2"));
    let none = "apart.sheet: not found in 200 runs of at most 40 events, seed 7; that is a search, and no proof\n";
    assert_eq!(room.done("try apart.sheet --strict --seed 7 --runs 200"), none);
}

/// Two phones that end apart are written as scripts that lead there, and as a picture; nothing else is written over.
#[test]
fn two_phones_as_files() {
    let room = Room::new("differ");
    room.put("apart.sheet", APART);
    let told = room.done("differ apart.sheet");
    let written = "apart-differ-1.play, apart-differ-2.play and apart-differ.svg are written\n";
    assert!(told.ends_with(written) && told.contains("differs is points: 10 and 0\n"), "{told}");
    for (phone, board) in [(1, "over 1, points 10"), (2, "over 1, points 0")] {
        let play = room.done(&format!("play apart.sheet apart-differ-{phone}.play"));
        assert!(play.contains(&format!("board: {board}\n")) && play.contains("as expected\n"), "{play}");
    }
    let picture = String::from_utf8(room.get("apart-differ.svg")).unwrap();
    for part in ["phone 1, which", "phone 2, which", "board: over 1, points 10", "board: over 1, points 0"] {
        assert!(picture.contains(part), "{part}");
    }
    // again, over what it wrote; over nothing else, and then none of the three
    assert_eq!(room.done("differ apart.sheet"), told);
    room.put("apart-differ-2.play", "send hit\n");
    room.refused(
        "differ apart.sheet",
        &format!("apart-differ-2.play is there and is not a script that differ wrote: {WAY}"),
    );
    room.done("differ apart.sheet two --force");
    assert!(room.get("two-1.play") == room.get("apart-differ-1.play"));
    // nothing to write
    room.put("apart.sheet", "event a rank 1 event b rank 2 active x = 0 on a: 1 on b: 1");
    let told = room.done("differ apart.sheet three");
    assert!(
        told.ends_with("none on all 2 boards (searched, not proved)\nmay differ: x\nnothing is written\n"),
        "{told}"
    );
    assert!(!room.0.join("three.svg").exists());
}

/// What check tells of phones: lines, groups of events, how far it looked, and winners.
#[test]
fn phones_that_part() {
    let room = Room::new("part");
    let says = |text: &str, words: &str, parts: &[&str]| {
        room.put("one.sheet", text);
        let told = room.done(&format!("check one.sheet{words}"));
        parts.iter().for_each(|part| assert!(told.contains(part), "{part}\n{told}"));
    };
    let over = "late (rank 9) writes over, line ";
    says(
        APART,
        "",
        &[over, "; hit (rank 2) reads it, line ", "nothing in common: hit and late\n", "may differ: points\n"],
    );
    says(APART, " --winner over", &["winner over: proved equal\n"]);
    says(APART, " --winner points", &["winner points: may differ, and is 10 and 0 in these two lists\n"]);
    // of three events two meet, and the third meets one of them at its own rank: all must have one
    let three = "event a rank 1 event b rank 2 event c rank 2 event d rank 3 active x = 0 on a: x * 2 on b: x + 1 \
                 active y = 0 on b: y * 3 on c: y + 1 active z = 0 on d: 1";
    says(three, "", &["nothing in common: a, b and c\n"]);
    // through a passive
    let through =
        "event a rank 1 event b rank 2\nactive x = 0\n  on a: x + 1\npassive p = x > 3\nactive y = 0\n  on b: p\n";
    says(through, "", &["a (rank 1) reads and writes x, line 3; b (rank 2) reads it, line 6\n"]);
    let more = "event a rank 1 event b rank 9 active t = 0 on b: t + 1 active s = 0 on a: if(0, t, s + 1)";
    says(more, " --boards 7", &["none on the first 7 boards (searched, not proved)\n"]);
    // both only add: 29, and each behaviour is proved equal
    let add = "event a rank 1 event b rank 9 active s = 0 on a: s + 10 on b: s + 5";
    says(add, " --strict --winner s", &["phones        agree on each behaviour", "winner s: proved equal\n"]);
    says("active a = 0", "", &["phones        agree: ", "by `deliver`", "decides by the board when idle"]);
    let done = room.setter("check one.sheet --winner b");
    assert_eq!(
        (done.status.code(), said(&done).as_str()),
        (Some(1), "one.sheet: no behaviour or cell b to be a winner\n")
    );
}

/// Steps as frames of a stated budget, in what is printed and on the axis.
#[test]
fn frames() {
    let room = Room::new("frames");
    assert!(room.done("check one.sheet --frame 4").contains("the longest event is hit, 10, 3 frames of 4\n"));
    let told = room.done("play one.sheet one.play --frame 4");
    assert!(told.contains("  step   frame of 4\n") && told.contains("\n    11       3  hit #0 commits\n"), "{told}");
    room.done("timeline one.sheet one.play one.svg --frame 4");
    assert!(String::from_utf8(room.get("one.svg")).unwrap().contains("frames of 4 steps"));
    assert!(said(&room.setter("play one.sheet one.play --frame 0")).starts_with("setter: --frame needs"));
}

/// A picture has senders, refusals by their word and what was read, each sign with a title, and few signs where many
/// arrive at once.
#[test]
fn pictures() {
    let room = Room::new("picture");
    room.put("many.sheet", "event hit rank 1 from 1 2\nactive score = 0\n  on hit: score + 1\n");
    room.put(
        "many.play",
        "send hit from 3\nrepeat 100 send hit from 2\nboard\nsteps 5\npreview hit by 1\nforecast\nrun\nboard score\n",
    );
    room.done("timeline many.sheet many.play many.svg");
    let picture = String::from_utf8(room.get("many.svg")).unwrap();
    for part in [
        ">#0 to #63 (64) from 2<",
        ">refused from 3: no right; 36 refused from 2: full hand<",
        ">63 wait<",
        "<title>step 0: hit #0 from player 2, hit #1 from player 2, ",
        "step 0: board: score 0<",
        "board: score 64<",
        "preview of hit from player 1",
        "forecast: idle after",
    ] {
        assert!(picture.contains(part), "{part}");
    }
    assert!(picture.matches("<title>").count() > 64 && picture.len() < 100_000, "{}", picture.len());
}

#[test]
fn expected_values() {
    let room = Room::new("expect");
    room.put("one.play", "repeat 3 send hit, run\nexpect score 30\nexpect score 20\nexpect score 30\n");
    let done = room.setter("play one.sheet one.play");
    assert_eq!((done.status.code(), said(&done).as_str()), (Some(1), "one.play:3: score is 30, expected 20\n"));
    let told = String::from_utf8(done.stdout).unwrap();
    assert!(told.contains("score is 30, expected 20\n") && told.ends_with("score is 30, as expected\n"), "{told}");
    room.put("hidden.sheet", "active a = 1 seen by 1\n");
    room.put("one.play", "expect a 1\nexpect a 1 by 1\nexpect a hidden by 2\n");
    room.done("play hidden.sheet one.play");
    for slip in
        ["expect score", "expect score x", "expect scor 1", "repeat", "repeat 3", "repeat 3 send hit,", "repeat x run"]
    {
        room.put("one.play", slip);
        let done = room.setter("play one.sheet one.play");
        assert!(done.status.code() == Some(1) && said(&done).starts_with("one.play:1: "), "{slip}");
    }
}

#[test]
fn numbers_for_a_program() {
    let room = Room::new("constants");
    room.put("my-day.sheet", "param gain = -2\nparam more\nevent hit rank 1\nrow lamp[4] = 0\nactive score = 0\n");
    let bytes =
        "255, 255, 255, 254, 0, 0, 0, 0, 0, 0, 0, 0, 0, 0, 0, 0, 0, 0, 0, 0, 0, 0, 0, 0, 0, 0, 0, 0, 0, 0, 0, 0";
    for (language, lines) in [
        ("c", ["#define MY_DAY_BEHAVIOUR_score 4u", "static const unsigned char MY_DAY_PARAMS[32] = {", bytes]),
        ("rust", ["pub const CELLS_lamp: u32 = 4;", "pub const PARAMS: [u8; 32] = [", bytes]),
        ("typescript", ["export const PARAM_more = 1;", "export const EVENT_hit = 0;", bytes]),
        (
            "java",
            ["public final class MyDay {", "    public static final int BEHAVIOUR_lamp = 0;", "{-1, -1, -1, -2, 0,"],
        ),
        ("swift", ["public enum MyDay {", "    public static let BEHAVIOUR_score: UInt32 = 4", bytes]),
    ] {
        let told = room.done(&format!("names my-day.sheet --as {language}"));
        assert!(lines.iter().all(|line| told.contains(line)), "{told}");
    }
    assert_eq!(room.done("names my-day.sheet"), room.done("names my-day.sheet --as c"));
    assert!(room.done("names my-day.sheet --param more=7").contains("{255, 255, 255, 254, 0, 0, 0, 7, 0,"));
    assert!(
        said(&room.setter("names my-day.sheet --as pascal")).starts_with("setter: no language pascal: names writes c,")
    );
}
