//! Two players' records of one round, held against each other.
use poqashem::record::{moves, parting, Auditor, Reader, Record, Verdict};
use std::process::ExitCode;

/// The rounds of a file, or why it cannot be read, at its first damage.
fn rounds(file: &str) -> Result<Vec<Record>, String> {
    let source = std::fs::File::open(file).map_err(|e| format!("{file}: {e}"))?;
    Reader::new(source).map(|next| next.map_err(|damage| format!("{file}: {damage}"))).collect()
}

/// What stands out of two records of one round, a line each; how many events and changes they have in common otherwise.
fn compared(auditor: &mut Auditor, both: [&Record; 2]) -> Result<[usize; 2], Vec<String>> {
    let mut found = vec![];
    for (which, record) in ["the first", "the second"].into_iter().zip(both) {
        let verdict = auditor.audit(record);
        if !matches!(verdict, Verdict::Agrees { .. }) {
            found.push(format!("{which} {verdict}"));
        }
    }
    // where the moves of one cannot be read the audit has told it
    if let (Ok(a), Ok(b)) = (moves(both[0]), moves(both[1])) {
        match parting(&a, &b) {
            Some(parting) => found.push(format!("they part: {parting}")),
            None if found.is_empty() => return Ok([a.arrivals.len(), a.changes.len()]),
            None => {}
        }
    }
    Err(found)
}

pub fn run(first: &str, second: &str) -> ExitCode {
    let both = rounds(first).and_then(|a| Ok([a, rounds(second)?]));
    let [a, b] = match both {
        Ok(both) => both,
        Err(why) => {
            eprintln!("audit: {why}");
            return ExitCode::from(2);
        }
    };
    let mut auditor = Auditor::new();
    let (mut apart, mut alike, mut common) = (a.len() != b.len(), 0, [0, 0]);
    for (k, (one, other)) in a.iter().zip(&b).enumerate() {
        match compared(&mut auditor, [one, other]) {
            Ok([arrivals, changes]) => {
                alike += 1;
                common = [common[0] + arrivals, common[1] + changes];
            }
            Err(found) => {
                apart = true;
                found.iter().for_each(|line| crate::print(&format!("round {k}, {:?}: {line}", one.name)));
            }
        }
    }
    if a.len() != b.len() {
        crate::print(&format!("the first has {} rounds, the second {}", a.len(), b.len()));
    }
    let [arrivals, changes] = common;
    let rounds = a.len().max(b.len());
    eprintln!(
        "audit: {alike} of {rounds} rounds are the same, {arrivals} events taken in, {changes} changes of sheets"
    );
    ExitCode::from(apart as u8)
}
