//! Texts to bytes and back.
mod held;

use held::{assemble, describe};
use sheet_text::{decode, encode};

const LAMPS: &str = include_str!("lamps.sheet");

fn built(text: &str) -> Vec<u8> {
    assemble(text.as_bytes()).unwrap_or_else(|fault| panic!("{fault}\n{text}")).sheet
}

/// The format's own example: its names and numbers, and its text with invented names.
#[test]
fn lamps() {
    let read = assemble(LAMPS.as_bytes()).expect("the example");
    let params: Vec<_> = read.params.iter().map(|p| (p.name.as_str(), p.default)).collect();
    assert_eq!(params, [("points", Some(10)), ("need", Some(3))]);
    let events: Vec<_> = read.events.iter().map(|e| e.name.as_str()).collect();
    assert_eq!(events, ["hit", "miss", "bonus", "flip", "timeup"]);
    let behaviours: Vec<_> = read.behaviours.iter().map(|b| (b.name.as_str(), b.first, b.cells)).collect();
    let row = ("lamp", 4, Some(12));
    let first = [("over", 0, None), ("score", 1, None), ("streak", 2, None), ("secret", 3, None), row];
    assert_eq!(behaviours[..5], first);
    assert_eq!(behaviours[5..], [("first", 16, None), ("final", 17, None)]);
    let text = describe(&read.sheet).expect("a sheet");
    let wanted = "param p0\nparam p1\n\
        event e0 rank 2 from 1 2\nevent e1 rank 2 from 1 2\nevent e2 rank 2 from 0\n\
        event e3 rank 2 from 1 2\nevent e4 rank 2 from 0\n\
        active b0=0\n  on e4:1\n\
        active b1=0\n  on e0:if(b0,b1,b1+p0*if(b2+1>=p1,2,1))\n  on e1:if(b0,b1,b1-5)\n  on e2:if(b0,b1,b1+b3)\n\
        active b2=0\n  on e0 later:if(b0,b2,b2+1)\n  on e1:0\n\
        active b3=50 seen by nobody\n\
        row b4[12]=-1\n  on e3:if(b0,b4,0-b4)\n\
        passive b16=b4+b4[11]\npassive b17=if(b0,b1,-1)\n";
    assert_eq!(text, wanted);
    assert_eq!(built(&text), read.sheet);
    assert_eq!(encode(&decode(&read.sheet).expect("a sheet")), read.sheet);
}

/// 01's sheet S, byte by byte.
#[test]
fn sheet_s() {
    let text = "event zero rank 1 event one rank 2 active b0 = 1 on zero: b0 + b1 \
                active b1 = 1 on zero later: b0 - b1 on one: 1";
    let bytes = [
        1, 0, 1, 1, 1, 0, 1, 2, 3, 0, 24, 4, 0, 4, 0, 0, 0, 1, 5, 0, 14, 0, 0, 18, 0, 9, 4, 17, 0, 1, 0, 17, 0, 1, 1,
        3, 0, 36, 4, 0, 4, 0, 0, 0, 1, 5, 0, 14, 0, 1, 18, 0, 9, 5, 17, 0, 1, 0, 17, 0, 1, 1, 5, 0, 9, 1, 0, 16, 0, 4,
        0, 0, 0, 1,
    ];
    assert_eq!(bytes.len(), 74);
    assert_eq!(built(text), bytes);
    let again = "event e0 rank 1\nevent e1 rank 2\nactive b0=1\n  on e0:b0+b1\n\
                 active b1=1\n  on e0 later:b0-b1\n  on e1:1\n";
    assert_eq!(describe(&bytes).as_deref(), Ok(again));
}

/// Names do not matter: renaming consistently gives the same bytes.
#[test]
fn names() {
    let renamed =
        ["points", "need", "hit", "miss", "bonus", "flip", "timeup", "over", "score", "streak", "secret", "lamp"];
    let mut text = LAMPS.to_string();
    for (k, name) in renamed.iter().enumerate() {
        text = text.replace(name, &format!("_{k}x"));
    }
    assert_ne!(text, LAMPS);
    assert_eq!(built(&text), built(LAMPS));
}

/// Brackets are there where they are needed, and not elsewhere.
#[test]
fn minimal_brackets() {
    let formulas = [
        ("(1+2)+3", "1+2+3"),
        ("1+(2+3)", "1+(2+3)"),
        ("1-(2-3)", "1-(2-3)"),
        ("(1*2)+(3/4)", "1*2+3/4"),
        ("(1+2)*(3+4)", "(1+2)*(3+4)"),
        ("1*(2*3)", "1*(2*3)"),
        ("!(!(1))", "!!1"),
        ("!(1+2)", "!(1+2)"),
        ("!1+2", "!1+2"),
        ("(((1)))", "1"),
        ("if((1),(2+3),(4))", "if(1,2+3,4)"),
        ("(if(1,2,3))*4", "if(1,2,3)*4"),
        ("((1<2)==(3>=4))&&(5!=6)||(7<=8)", "1<2==3>=4&&5!=6||7<=8"),
        ("1||(2&&3)", "1||2&&3"),
        ("(1||2)&&3", "(1||2)&&3"),
        ("1<(2<3)", "1<(2<3)"),
        ("1-(-2)", "1--2"),
        ("(-1)-2", "-1-2"),
        ("!(-1)*-2", "!-1*-2"),
        ("0-2147483648+0", ""),
        ("-2147483648", "-2147483648"),
    ];
    for (text, wanted) in formulas {
        let Ok(read) = assemble(format!("passive a = {text}").as_bytes()) else {
            assert_eq!(wanted, "", "{text}");
            continue;
        };
        let again = describe(&read.sheet).expect("a sheet");
        assert_eq!(again, format!("passive b0={wanted}\n"), "{text}");
        assert_eq!(built(&again), read.sheet, "{text}");
    }
}

/// Rights, rows and parameters as they are written.
#[test]
fn declarations() {
    let text = "event e0 rank 15 from nobody\nevent e1 rank 0 from 0 1 2 3 4 5 6 7\n\
                row b0[2]=0 seen by 7\n  on e1 later:b0+b0[1]+b2\nrow b2[3]=-5\n  on e0:b0+b0[1]+b2[2]\n\
                passive b5=if(b0,b2[1],p2)seen by nobody\n";
    let text = format!("param p0\nparam p1\nparam p2\n{text}");
    let bytes = built(&text);
    assert_eq!(describe(&bytes), Ok(text));
    assert_eq!(describe(b"").as_deref(), Ok(""));
    assert_eq!(describe(&[9, 0, 0]), Err(5));
    assert_eq!(describe(&[2, 0, 4, 17, 0, 1, 1]), Err(11));
}

/// Texts with bytes changed, left out, put in and cut off: a fault within the text, or a sheet that goes round.
#[test]
fn damaged() {
    let pieces: Vec<&str> =
        LAMPS.split_inclusive([' ', '\n', '(']).chain(["!", "[0]", "-", "2147483648 ", "$"]).collect();
    let mut state = 1u64;
    let mut below = |n: usize| {
        state = state.wrapping_mul(6364136223846793005).wrapping_add(1442695040888963407);
        (state >> 33) as usize % n
    };
    let mut read = [0; 2];
    for _ in 0..20_000 {
        let mut text = LAMPS.as_bytes().to_vec();
        for _ in 0..1 + below(2) {
            let at = below(text.len());
            match below(4) {
                0 => text[at] = below(256) as u8,
                1 => drop(text.remove(at)),
                2 => text.truncate(at.max(1)),
                _ => drop(text.splice(at..at, pieces[below(pieces.len())].bytes())),
            }
        }
        let lines = text.iter().filter(|b| **b == b'\n').count() + 1;
        match assemble(&text) {
            Ok(done) => {
                read[1] += 1;
                let again = describe(&done.sheet).expect("a sheet");
                assert_eq!(built(&again), done.sheet);
            }
            Err(fault) => {
                read[0] += 1;
                let line = text.split(|b| *b == b'\n').nth(fault.place.line - 1).map_or(0, <[u8]>::len);
                assert!((1..=lines).contains(&fault.place.line) && (1..=line + 1).contains(&fault.place.column));
            }
        }
    }
    assert!(read[0] > 1000 && read[1] > 1000, "both happen: {read:?}");
}

/// The longest text of a sheet of 8,192 bytes is far below the limit: rights spelt out, and handlers over cells.
#[test]
fn longest() {
    let all = "0 1 2 3 4 5 6 7";
    let mut text: String = (0..32).map(|e| format!("event e{e} rank 15 from {all}\n")).collect();
    for row in 0..4 {
        text += &format!("row b{}[16]=-2147483648 seen by {all}\n", 16 * row);
        for e in 0..32 {
            text += &format!("  on e{e} later:b48[15]||b48[15]&&(b48[15]||b48[15]&&(b48[15]||b48[15]&&b48[15]))\n");
        }
    }
    let sheet = built(&text);
    assert!((7_000..=sheet_text::SHEET).contains(&sheet.len()), "{} bytes", sheet.len());
    assert_eq!(describe(&sheet), Ok(text.clone()));
    assert!(text.len() < sheet_text::TEXT / 3, "{} bytes of text", text.len());
}
