//! The program as it is called: help, standard input, files that are none, parts of files, the league's sheet, lines of
//! JSON, and two players' records of one round.
use poqashem::record::{Record, Recorder, Request, Writer};
use poqashem::{Event, Params, Player, Sheet};
use std::io::Write;
use std::path::{Path, PathBuf};
use std::process::{Command, Output, Stdio};

/// A file of one round with two calls.
fn rounds() -> Vec<u8> {
    let mut round = Recorder::start("one", Sheet::new([1, 0, 1, 5]), None).unwrap();
    round.arrive(Event(0), Player(1)).unwrap();
    round.step().unwrap();
    let mut file = Writer::new(vec![]).unwrap();
    file.write(&round.finish()).unwrap();
    file.into_inner()
}

fn file(name: &str, bytes: &[u8]) -> PathBuf {
    let path = Path::new(env!("CARGO_TARGET_TMPDIR")).join(format!("{name}-{}", std::process::id()));
    std::fs::write(&path, bytes).unwrap();
    path
}

fn audit(words: &[&str], input: &[u8]) -> Output {
    let mut program = Command::new(env!("CARGO_BIN_EXE_audit"));
    let program = program.args(words).stdin(Stdio::piped()).stdout(Stdio::piped()).stderr(Stdio::piped());
    let mut running = program.spawn().unwrap();
    // a program that does not read goes away before all is written
    let _ = running.stdin.take().unwrap().write_all(input);
    running.wait_with_output().unwrap()
}

/// Status, findings, and what it says besides.
fn told(words: &[&str], input: &[u8]) -> (Option<i32>, String, String) {
    let done = audit(words, input);
    let text = |bytes: Vec<u8>| String::from_utf8(bytes).unwrap();
    (done.status.code(), text(done.stdout), text(done.stderr))
}

#[test]
fn help() {
    for word in ["--help", "-h"] {
        let (status, out, error) = told(&[word], b"");
        assert!(out.starts_with("audit [--threads N]") && out.contains("standard input"), "{out}");
        assert_eq!((status, error.as_str()), (Some(0), ""), "audit {word}");
    }
    let wrong = [
        (&["--hlep"][..], "no option --hlep"),
        (&["-x"], "no option -x"),
        (&[], "no file is named"),
        (&["--part", "0/3", "a"], "--part takes K/N, K from 1 to N, and not 0/3"),
        (&["--part", "1/3", "-"], "--part needs files, whose length is known"),
        (&["--params", "1", "a"], "--params needs --sheet"),
        (&["--same", "a"], "--same takes two files"),
        (&["--same", "--sum", "a", "b"], "--same and --sum are two questions"),
        (&["--sum"], "no file is named"),
        (&["--threads", "many", "a"], "--threads needs a number"),
    ];
    for (words, why) in wrong {
        let (status, out, error) = told(words, b"");
        assert_eq!((status, out.as_str()), (Some(2), ""), "audit {words:?}");
        assert!(error.starts_with(&format!("audit: {why}\n")), "{error}");
    }
}

#[test]
fn standard_input() {
    let (status, out, error) = told(&["-"], &rounds());
    assert_eq!((status, out.as_str()), (Some(0), ""));
    assert!(error.contains("1 round, 2 calls: 1 agree, 0 differ"), "{error}");
    let (status, out, _) = told(&["--quiet", "-"], &rounds()[1..]);
    assert_eq!(status, Some(1));
    assert!(out.starts_with("-: damaged: the file does not begin as a file of recorded rounds (bytes 0 to "), "{out}");
}

/// What cannot be read is told once, and nothing is found in it.
#[test]
fn what_cannot_be_read() {
    let folder = env!("CARGO_TARGET_TMPDIR");
    let whole = file("whole", &rounds());
    let (status, out, error) = told(&[folder, whole.to_str().unwrap()], b"");
    assert_eq!((status, out.as_str()), (Some(2), ""), "{error}");
    assert!(error.starts_with(&format!("audit: {folder}: ")), "{error}");
    assert!(error.contains("1 agree, 0 differ, 0 cannot be played; 0 damaged stretches"), "{error}");
    assert_eq!(error.lines().count(), 2, "{error}");
    std::fs::remove_file(whole).unwrap();
}

#[test]
fn a_file_of_no_bytes() {
    let empty = file("empty", b"");
    let name = empty.to_str().unwrap();
    let (status, out, _) = told(&[name], b"");
    assert_eq!((status, out), (Some(1), format!("{name}: damaged: the file has no bytes\n")));
    std::fs::remove_file(empty).unwrap();
}

/// Event 0 adds 2 to b0, which begins with this number.
fn counter(start: u8) -> Sheet {
    Sheet::new([1, 0, 1, 5, 3, 0, 19, 4, 0, 4, 0, 0, 0, start, 5, 0, 9, 0, 0, 0x10, 0, 4, 0, 0, 0, 2])
}

fn played(name: &str, start: u8, players: &[u32]) -> Recorder {
    let mut round = Recorder::start(name, counter(start), None).unwrap();
    for player in players {
        round.arrive(Event(0), Player(*player)).unwrap();
        (0..*player).for_each(|_| assert!(round.step().is_ok()));
    }
    round
}

fn written(records: &[Record]) -> Vec<u8> {
    let mut file = Writer::new(vec![]).unwrap();
    records.iter().for_each(|record| file.write(record).unwrap());
    file.into_inner()
}

/// A round of the league, as the phone did not play it: an answer that is none.
fn forged(k: usize) -> Record {
    let mut record = played(&format!("forged \"{k}\""), 9, &[1, 2]).finish();
    record.push(Request::Forecast, 77, &[]);
    record
}

/// A number of the last line of JSON.
fn number(sum: &str, name: &str) -> u64 {
    let from = sum.find(&format!("\"{name}\":")).expect(name) + name.len() + 3;
    let digits: String = sum[from..].chars().take_while(char::is_ascii_digit).collect();
    digits.parse().expect(name)
}

/// Two files with differences and damage in them, whole and in parts: the parts' lines put together are those of the
/// whole, and so are the sums.
#[test]
fn parts() {
    let round = |k: usize| if k % 7 == 3 { forged(k) } else { played(&format!("{k}"), 9, &vec![1; k % 5]).finish() };
    let mut first = written(&(0..40).map(round).collect::<Vec<_>>());
    let second = written(&(40..53).map(round).collect::<Vec<_>>());
    let middle = first.len() / 2;
    first[middle] ^= 0x55;
    let files = [file("first", &first), file("second", &second), file("none", b"")];
    let names: Vec<&str> = files.iter().map(|f| f.to_str().unwrap()).collect();
    let run = |words: &[&str]| {
        let (status, out, error) = told(&[&["--json", "--quiet"], words, &names[..]].concat(), b"");
        assert_eq!(status, Some(error.contains("0 differ, 0 cannot be played; 0 damaged") as i32 ^ 1), "{error}");
        let mut lines: Vec<String> = out.lines().map(str::to_string).collect();
        let sum = lines.pop().expect("a sum");
        assert!(sum.starts_with("{\"sum\":{") && sum.ends_with("}}"), "{sum}");
        (lines, sum)
    };
    let (whole, sum) = run(&[]);
    let counted = ["rounds", "calls", "agree", "differ", "unplayable", "sheet", "damaged", "unread"];
    assert_eq!(counted.map(|name| number(&sum, name))[..1], [52], "{sum}");
    assert_eq!((number(&sum, "differ"), number(&sum, "damaged")), (8, 2), "{sum}");
    assert!(whole[0].contains(",\"name\":\"forged \\\"3\\\"\",\"found\":\"differs\",\"call\":"), "{}", whole[0]);
    for parts in [1, 2, 3, 8, 50, 1000] {
        let mut together = vec![];
        let mut added = [0; 8];
        for part in (1..=parts).filter(|k| parts < 1000 || k % 50 == 0) {
            let (lines, sum) = run(&["--part", &format!("{part}/{parts}")]);
            together.extend(lines);
            added.iter_mut().zip(counted).for_each(|(n, name)| *n += number(&sum, name));
        }
        if parts == 1000 {
            assert!(together.iter().all(|line| whole.contains(line)), "a part of {parts} has a line of its own");
            continue;
        }
        assert_eq!(together, whole, "{parts} parts");
        assert_eq!(added, counted.map(|name| number(&sum, name)), "{parts} parts");
    }
    // cuts that fall on the beginning of a round: files of one length, put one behind the other
    let row = file("row", &written(&[forged(0)]).repeat(5));
    for part in 1..=5 {
        let (_, out, _) = told(&["--json", "--part", &format!("{part}/5"), row.to_str().unwrap()], b"");
        assert_eq!(number(out.lines().last().unwrap(), "rounds"), 1, "part {part}: {out}");
    }
    std::fs::remove_file(row).unwrap();
    let (_, out, error) = told(&[&["--part", "2/2"], &names[..]].concat(), b"");
    assert!(out.contains(": round at byte ") && error.contains(" a core and second"), "{out}{error}");
    files.iter().for_each(|f| std::fs::remove_file(f).unwrap());
}

/// What five parts of a file printed is put together; a part that is missing, doubled, cut, of another count or no
/// audit's is told, and then there is no sum.
#[test]
fn parts_put_together() {
    let round = |k: usize| if k % 4 == 1 { forged(k) } else { played(&format!("{k}"), 9, &vec![1; k % 5]).finish() };
    let day = file("day", &written(&(0..30).map(round).collect::<Vec<_>>()));
    let name = day.to_str().unwrap();
    let (_, whole, _) = told(&["--json", "--quiet", name], b"");
    let part = |k: u32, n: u32| told(&["--json", "--quiet", "--part", &format!("{k}/{n}"), name], b"").1;
    let all: Vec<String> = (1..=5).map(|k| part(k, 5)).collect();
    let sum = |lines: &str| told(&["--sum", "-"], lines.as_bytes());
    let (status, out, error) = sum(&all.concat());
    let (expected, found): (Vec<&str>, Vec<&str>) = (whole.lines().collect(), out.lines().collect());
    assert_eq!((status, found.len()), (Some(1), expected.len()), "{error}");
    assert_eq!(found[..found.len() - 1], expected[..found.len() - 1], "the findings in their order");
    for name in ["part", "parts", "rounds", "calls", "agree", "differ", "unplayable", "sheet", "damaged", "unread"] {
        assert_eq!(number(found[found.len() - 1], name), number(expected[found.len() - 1], name), "{name}");
    }
    assert!(error.contains("30 rounds, ") && error.contains(" a core and second"), "{error}");
    // in any order, from files, and sums of sums
    let files: Vec<PathBuf> = (0..5).map(|k| file(&format!("part{k}"), all[4 - k].as_bytes())).collect();
    let names: Vec<&str> = files.iter().map(|f| f.to_str().unwrap()).collect();
    let (_, again, _) = told(&[&["--sum"], &names[..]].concat(), b"");
    assert_eq!(number(again.lines().last().unwrap(), "differ"), 8);
    assert_eq!(number(sum(&again).1.lines().last().unwrap(), "differ"), 8);
    for (lines, why) in [
        (all[1..].concat(), "part 1 of 5 is missing"),
        (all[..4].concat(), "part 5 of 5 is missing"),
        ([&all[..], &all[2..3]].concat().concat(), "part 3 of 5 is there twice"),
        ([&all[..4], &[part(1, 2)]].concat().concat(), "some are parts of 5, others of 2"),
        (all.concat() + whole.lines().next().unwrap() + "\n", "-: it does not end with a sum"),
        (all.concat().trim_end().to_string(), "-: it does not end with a sum"),
        (all.concat() + "hello\n", "is none that audit --json prints"),
        (String::new(), "-: it does not end with a sum"),
    ] {
        let (status, out, error) = sum(&lines);
        assert_eq!(status, Some(2), "{error}");
        assert!(error.contains(why) && !out.contains("\"sum\""), "{why}: {out}{error}");
    }
    files.iter().chain([&day]).for_each(|f| std::fs::remove_file(f).unwrap());
}

/// Records of a cheat that agree with themselves, and so pass the audit: each is found beside the opponent's record,
/// and another start or a sheet of one's own by the league's sheet alone.
#[test]
fn cheats() {
    let fair = || played("final", 9, &[1, 2, 1, 2]);
    let mut own_sheet = fair();
    own_sheet.mend(counter(255), None).unwrap();
    let cheats = [
        ("the opponent's moves left out", played("final", 9, &[1, 1]), false),
        ("moves made up", played("final", 9, &[1, 2, 1, 2, 1, 1]), false),
        ("another start value", played("final", 99, &[1, 2, 1, 2]), true),
        ("a change to a sheet of one's own", own_sheet, true),
        ("cut before the end", played("final", 9, &[1, 2, 1]), false),
        ("moves in another order", played("final", 9, &[2, 1, 1, 2]), false),
    ];
    let (sheet, theirs) = (file("sheet", counter(9).bytes()), file("theirs", &written(&[fair().finish()])));
    for (what, record, by_sheet) in cheats {
        let ours = file("ours of a cheat", &written(&[record.finish()]));
        let [ours_name, theirs, sheet] = [&ours, &theirs, &sheet].map(|f| f.to_str().unwrap());
        assert_eq!(told(&["--quiet", ours_name], b"").0, Some(0), "{what}: its answers follow from its calls");
        let (status, out, _) = told(&["--same", ours_name, theirs], b"");
        assert!(status == Some(1) && out.contains("they part: "), "{what}: {out}");
        let asked = told(&["--quiet", "--sheet", sheet, ours_name], b"").0;
        assert_eq!(asked, Some(by_sheet as i32), "{what}, by the league's sheet");
        std::fs::remove_file(ours).unwrap();
    }
    [sheet, theirs].iter().for_each(|f| std::fs::remove_file(f).unwrap());
}

/// Rounds that began with another sheet or other parameters, or changed to one that is not the league's.
#[test]
fn the_leagues_sheet() {
    let (ours, late) = (file("ours", counter(9).bytes()), file("late", counter(5).bytes()));
    let (ours_name, late_name) = (ours.to_str().unwrap(), late.to_str().unwrap());
    let mut changed = played("changed", 9, &[1]);
    changed.mend(counter(5), None).unwrap();
    let other_start = played("other start", 99, &[1]).finish();
    let lent = Recorder::start("lent", counter(9), Some(Params::new([1; 8]))).unwrap().finish();
    let input = written(&[played("fair", 9, &[1, 2]).finish(), other_start, changed.finish(), lent]);

    let (status, out, _) = told(&["--quiet", "-"], &input);
    assert_eq!((status, out.as_str()), (Some(0), ""), "each agrees with itself");
    let (status, out, error) = told(&["--quiet", "--sheet", ours_name, "-"], &input);
    let lines = [
        "-: round 1, \"other start\", sheet 0 is not the one that is asked for",
        "-: round 2, \"changed\", sheet 1 is not the one that is asked for",
        "-: round 3, \"lent\", sheet 0 has other parameters than are asked for",
    ];
    assert_eq!((status, out.lines().collect::<Vec<_>>()), (Some(1), lines.to_vec()));
    assert!(
        error.contains("4 rounds, ") && error.contains(": 1 agree, 0 differ, 0 cannot be played, 3 of another sheet")
    );
    let (_, out, _) = told(&["--quiet", "--sheet", ours_name, "--sheet", late_name, "-"], &input);
    assert_eq!(out.lines().collect::<Vec<_>>(), [lines[0], lines[2]]);
    let began_late = written(&[played("late", 5, &[1]).finish()]);
    let (_, out, _) = told(&["--quiet", "--sheet", ours_name, "--sheet", late_name, "-"], &began_late);
    assert_eq!(out, "-: round 0, \"late\", sheet 0 is not the one that is asked for\n");
    let (_, out, _) = told(&["--quiet", "--sheet", ours_name, "--params", "1,1,1,1,1,1,1,1", "-"], &input);
    assert!(!out.contains("\"lent\"") && out.contains("\"fair\", sheet 0 has other parameters"), "{out}");
    let (status, _, error) = told(&["--sheet", "no such file", "-"], &input);
    assert!(status == Some(2) && error.starts_with("audit: no such file: "), "{error}");
    [ours, late].iter().for_each(|f| std::fs::remove_file(f).unwrap());
}

/// Two players' records: a move left out, made up, of another player, and a record cut before the end.
#[test]
fn two_records_of_one_round() {
    let same = |a: Recorder, b: Recorder| {
        let files = [file("a", &written(&[a.finish()])), file("b", &written(&[b.finish()]))];
        let told = told(&["--same", files[0].to_str().unwrap(), files[1].to_str().unwrap()], b"");
        files.iter().for_each(|f| std::fs::remove_file(f).unwrap());
        told
    };
    let fair = || played("final", 9, &[1, 2, 1]);
    let mut framed = Recorder::start("the other's", counter(9), None).unwrap();
    [1, 2, 1].iter().for_each(|player| framed.arrive(Event(0), Player(*player)).unwrap());
    framed.frame(500, 9);
    let (status, out, error) = same(fair(), framed);
    assert_eq!((status, out.as_str()), (Some(0), ""), "however the steps are cut");
    assert_eq!(error, "audit: 1 of 1 rounds are the same, 3 events taken in, 0 changes of sheets\n");
    let arrival = |k: u32, ours: &str, theirs: &str| {
        format!("round 0, \"final\": they part: arrival {k}: the first has {ours}, the second {theirs}\n")
    };
    let (one, two) = ("event 0 of player 1", "event 0 of player 2");
    for (players, line) in [
        (&[1, 1][..], arrival(1, two, one)),
        (&[1, 2, 1, 2], arrival(3, "none", two)),
        (&[1, 2], arrival(2, one, "none")),
        (&[1, 2, 2], arrival(2, one, two)),
    ] {
        let (status, out, _) = same(fair(), played("final", 9, players));
        assert_eq!((status, out), (Some(1), line), "{players:?}");
    }
    let (status, out, _) = same(fair(), played("final", 8, &[1, 2, 1]));
    assert_eq!(status, Some(1));
    assert!(out.ends_with("they part: they began with different sheets or parameters\n"), "{out}");
    let mut changed = fair();
    changed.mend(counter(99), None).unwrap();
    let (status, out, _) = same(fair(), changed);
    assert!(status == Some(1) && out.contains("change 0: the first has none, the second one after "), "{out}");
}

/// A record whose answers are not the engine's, fewer rounds, and a file that is damaged.
#[test]
fn records_that_cannot_be_compared() {
    let fair = written(&[played("final", 9, &[1, 2]).finish()]);
    let compared = |a: &[u8], b: &[u8]| {
        let files = [file("left", a), file("right", b)];
        let told = told(&["--same", files[0].to_str().unwrap(), files[1].to_str().unwrap()], b"");
        files.iter().for_each(|f| std::fs::remove_file(f).unwrap());
        told
    };
    let (status, out, _) = compared(&fair, &written(&[forged(0)]));
    assert!(status == Some(1) && out.starts_with("round 0, \"final\": the second differs at call "), "{out}");
    let (status, out, _) = compared(&fair, &written(&[]));
    assert_eq!((status, out.as_str()), (Some(1), "the first has 1 rounds, the second 0\n"));
    let (status, out, error) = compared(&fair, &fair[..fair.len() - 1]);
    assert!(status == Some(2) && out.is_empty() && error.contains("the file ends within a round"), "{error}");
}
