//! Texts of sheets on both sides of each limit, among them those that are as long as can be.
use sheet_text::{describe, NAME, SHEET, TEXT};

use crate::cases;

/// A sheet of one event and one active.
const SMALL: &str = "event e rank 1\nactive a = 0\n  on e: a + 1\n";

/// A text that is continued to a length with these bytes, and with spaces where they do not fit.
fn filled(text: &str, with: &str, length: usize) -> String {
    let left = length - text.len();
    [text, &with.repeat(left / with.len()), &" ".repeat(left % with.len())].concat()
}

fn nested(n: usize, open: &str, close: &str) -> String {
    format!("passive a={}1{}", open.repeat(n), close.repeat(n))
}

/// So many parameters, events and actives.
fn declared(params: usize, events: usize, actives: usize) -> String {
    let many = |count: usize, one: &dyn Fn(usize) -> String| (0..count).map(|k| one(k) + "\n").collect::<String>();
    many(params, &|k| format!("param p{k}"))
        + &many(events, &|k| format!("event e{k} rank {}", k % 16))
        + &many(actives, &|k| format!("active b{k}=0"))
}

/// Texts of so many bytes: a sheet and what may follow it, one thing all over, a formula that does not end, brackets.
fn long(length: usize) -> Vec<String> {
    let mut all: Vec<String> = vec![];
    all.extend(
        [" ", "\n", "#", "# .\n", "(", "x", "$", "\r\n", "passive x=1\n"].map(|with| filled(SMALL, with, length)),
    );
    all.extend(["(", " ", "\n", "0", "9", "a", "!"].map(|with| filled("", with, length)));
    all.extend(["(", "!", "1+", "0", "9", "-", "if(", " ", "\n"].map(|with| filled("passive a=", with, length)));
    let brackets = nested((length - "passive a=1".len()) / 2, "(", ")");
    all.extend([" ", ")"].map(|with| filled(&brackets, with, length)));
    all
}

/// All of them.
pub fn texts() -> Vec<String> {
    let mut all: Vec<String> = ["", " ", "\n", "#", "\r", "passive", "(", "!", "-"].map(str::to_string).into();
    all.extend([TEXT - 1, TEXT, TEXT + 1, TEXT + 70].into_iter().flat_map(long));
    all.extend([NAME - 1, NAME, NAME + 1, TEXT - "param ".len()].map(|n| format!("param {}", "w".repeat(n))));
    for n in [14, 15, 16] {
        all.extend([("!", ""), ("if(1,", ",0)"), ("1+", ""), ("1+(((", ")))")].map(|(a, b)| nested(n, a, b)));
    }
    all.extend([(8, 32, 64), (9, 0, 0), (0, 33, 0), (0, 0, 65)].map(|(p, e, b)| declared(p, e, b)));
    for (before, cells) in [(0, 1), (0, 2), (48, 16), (48, 17), (49, 15), (49, 16), (64, 2)] {
        all.push(declared(0, 0, before) + &format!("row r[{cells}]=0"));
    }
    let full = describe(&cases::bytes_of(SHEET)).expect("a sheet");
    all.extend([full.replacen(" rank 1", " rank 1 from 1", 1), full.clone() + "passive z=1", full]);
    all.extend(["2147483647", "2147483648", "-2147483648", "-2147483649"].map(|n| format!("passive a={n}")));
    let small = [
        "event e rank 15 from 7",
        "event e rank 16",
        "event e rank 1 from 8",
        "event e rank 1 event e rank 2",
        "passive a=1 active a=0",
        "passive a=b",
        "passive a=a[0]",
        "row r[2]=0 passive a=r[1]",
        "row r[2]=0 passive a=r[2]",
        "event e rank 1 row r[2]=0 on e:r[0]",
        "event e rank 1 row r[2]=0 on e:s[0] row s[3]=0",
    ];
    all.extend(small.map(str::to_string));
    all.push(format!("{SMALL}  on e: 2"));
    all
}
