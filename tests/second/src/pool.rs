//! Document 02, M-111: one sheet from two, written from the request alone. The sheets are taken as trees of fields,
//! rows as they stand.

use crate::compare::{self, Guarded};
use crate::engine::{self, Model};
use crate::limits::{active, con, event, field, handler, join, name, of_bytes, param, passive};
use crate::make::{self, Rng};
use crate::proved::{self, TABLE};

/// The fields of a value, each with its tag.
fn fields(mut s: &[u8]) -> Vec<(u8, &[u8])> {
    let mut out = vec![];
    while !s.is_empty() {
        let n = s[1] as usize * 256 + s[2] as usize;
        out.push((s[0], &s[3..3 + n]));
        s = &s[3 + n..];
    }
    out
}

/// A field with every name in it moved up; each knows how many bytes stand before the fields inside it.
fn moved((tag, v): (u8, &[u8]), up: u8) -> Vec<u8> {
    let before = match tag {
        2 | 3 => 0,
        6 | 0x12 => 1,
        5 => 2,
        0x11 => return field(tag, &[v[0] + up]),
        _ => return field(tag, v),
    };
    let mut inside = v[..before].to_vec();
    fields(&v[before..]).into_iter().for_each(|f| inside.extend(moved(f, up)));
    field(tag, &inside)
}

fn count(behaviours: &[(u8, &[u8])]) -> usize {
    behaviours.iter().map(|(tag, v)| if *tag == 6 { v[0] as usize } else { 1 }).sum()
}

/// The joined sheet, or the refusal's number; `room` is the buffer's length.
pub fn pooled(first: &[u8], second: &[u8], params: &[u8], room: usize) -> Result<Vec<u8>, u32> {
    engine::compile(first, params)?;
    engine::compile(second, params)?;
    let parts = |s| fields(s).into_iter().partition::<Vec<_>, _>(|(tag, _)| *tag == 1);
    let ((e1, b1), (e2, b2)) = (parts(first), parts(second));
    let mut out = vec![];
    for k in 0..e1.len().max(e2.len()) {
        out.extend(match (e1.get(k), e2.get(k)) {
            (Some((_, a)), Some((_, b))) if a[0] != b[0] => return Err(26),
            (Some((_, a)), Some((_, b))) if a.len() == 1 && b.len() == 1 => field(1, a),
            (Some((_, a)), Some((_, b))) => field(1, &[a[0], a.get(1).unwrap_or(&255) & b.get(1).unwrap_or(&255)]),
            (Some((_, own)), None) | (None, Some((_, own))) => field(1, own),
            (None, None) => unreachable!(),
        });
    }
    let up = count(&b1);
    b1.iter().for_each(|f| out.extend(moved(*f, 0)));
    b2.iter().for_each(|f| out.extend(moved(*f, up as u8)));
    if out.len() > 8192 {
        return Err(3);
    }
    if up + count(&b2) > 64 {
        return Err(7);
    }
    if let Err(n) = engine::compile(&out, params) {
        assert_eq!(n, 13, "the only number left");
        return Err(13);
    }
    if out.len() > room {
        return Err(27);
    }
    Ok(out)
}

/// The call on both engines: the answer, and every byte.
fn check(first: &[u8], second: &[u8], params: &[u8], room: usize) -> Result<Vec<u8>, u32> {
    let mut buffer = Guarded::new(room, 0x5A);
    let lent = (first.to_vec(), second.to_vec(), params.to_vec());
    let got = proved::join(first, second, params, buffer.part_mut());
    assert!(lent == (first.to_vec(), second.to_vec(), params.to_vec()), "join changed what it was lent to read");
    buffer.check();
    let want = pooled(first, second, params, room);
    let written = want.as_ref().map_or(0, |v| v.len());
    match &want {
        Ok(v) => {
            assert_eq!(got, (1 << 32) + v.len() as u64, "join's answer");
            assert!(&buffer.part()[..v.len()] == v.as_slice(), "the joined sheet");
        }
        Err(n) => assert_eq!(got, *n as u64, "join's refusal"),
    }
    assert!(buffer.part()[written..].iter().all(|b| *b == 0x5A), "the buffer's other bytes");
    want
}

/// After the same commits each half of the joined board is that sheet's own; and the joined sheet runs on both engines
/// as any other.
fn halves(r: &mut Rng, first: &[u8], second: &[u8], params: &[u8], v: &[u8]) {
    let own = |s| engine::compile(s, params).expect("accepted");
    let (a, b, both) = (own(first), own(second), own(v));
    let (mut x, mut y, mut z) = (a.fresh(), b.fresh(), both.fresh());
    assert_eq!(z, [x.clone(), y.clone()].concat(), "fresh boards");
    for _ in 0..if both.ranks.is_empty() { 0 } else { 12 } {
        let e = r.below(both.ranks.len());
        z = both.event(e, &z).0;
        if e < a.ranks.len() {
            x = a.event(e, &x).0;
        }
        if e < b.ranks.len() {
            y = b.event(e, &y).0;
        }
        assert_eq!(z, [x.clone(), y.clone()].concat(), "the halves after event {e}");
    }
    for e in 0..both.ranks.len() {
        for who in 0..8 {
            let may = |s: &engine::Sheet| s.senders.get(e).map_or(true, |said| engine::may(*said, who));
            assert_eq!(engine::may(both.senders[e], who), may(&a) && may(&b), "who may send event {e}");
        }
    }
    let mut table = Guarded::new(TABLE, 0);
    let sheet = compare::compile(v, params, &mut table).expect("the joined sheet is accepted");
    assert_eq!(Model::new(sheet.clone()).board, [a.fresh(), b.fresh()].concat());
    compare::run(&sheet, &table, &make::calls(r, &sheet, 60));
}

/// A seed's sheet, whole or damaged, with another, whole or damaged, first and second; with room, exactly enough, and
/// too little.
pub fn one(seed: u64, bytes: &[u8], params: &[u8], tally: &mut [usize; 32]) {
    let r = &mut Rng::new(seed ^ 0x706F6F6C);
    let mut other = make::sheet(r);
    if let (Ok(own), false) = (engine::read(bytes), r.one_in(5)) {
        other.ranks.iter_mut().zip(&own.ranks).for_each(|(a, b)| *a = *b);
    }
    let whole = make::encode(&other);
    let other = if r.one_in(6) { make::damaged(r, whole) } else { whole };
    for (first, second) in [(bytes, other.as_slice()), (other.as_slice(), bytes), (bytes, bytes)] {
        let done = check(first, second, params, 16384);
        tally[*done.as_ref().err().unwrap_or(&0) as usize] += 1;
        if let Ok(v) = &done {
            let v = v.clone();
            halves(r, first, second, params, &v);
            assert_eq!(check(first, second, params, v.len()), Ok(v.clone()));
            if !v.is_empty() {
                assert_eq!(check(first, second, params, v.len() - 1), Err(27));
            }
        } else {
            assert_eq!(check(first, second, params, 0), done, "27 comes last");
        }
    }
}

/// Both sides of each limit, and the order of the checks.
pub fn limits() {
    let many = |n: usize| join(&vec![passive(&con(1)); n]);
    let ranks = |r: &[u8]| join(&r.iter().map(|k| event(*k)).collect::<Vec<_>>());
    let said = |r: u8, m: u8| field(1, &[r, m]);
    let torn = vec![1u8, 0];
    let room = 16384;
    let number = |a: &[u8], b: &[u8]| check(a, b, &[], room).err().unwrap_or(0);
    assert_eq!(check(&[], &[], &[], 0), Ok(vec![]), "two rest days");
    assert_eq!(number(&many(40), &many(24)), 0, "64 behaviours");
    assert_eq!(number(&many(40), &many(25)), 7, "65 behaviours");
    assert_eq!(number(&torn, &passive(&name(0))), 4, "the first sheet's number first");
    assert_eq!(number(&passive(&name(0)), &torn), 12, "the first sheet's number first");
    assert_eq!(number(&ranks(&[1]), &torn), 4, "then the second's");
    assert_eq!(number(&ranks(&[1, 2]), &ranks(&[1, 3, 4])), 26, "event 1");
    assert_eq!(number(&ranks(&[1, 2]), &ranks(&[1])), 0, "event 1 of the first alone");
    assert_eq!(number(&join(&[ranks(&[1]), many(40)]), &join(&[ranks(&[2]), many(40)])), 26, "26 before 7");
    assert_eq!(number(&of_bytes(4096, &name(0)), &of_bytes(4096, &name(0))), 0, "8,192 bytes");
    assert_eq!(number(&of_bytes(4096, &name(0)), &of_bytes(4097, &name(0))), 3, "8,193 bytes");
    let wide = join(&[of_bytes(7700, &name(0)), many(20)]);
    assert_eq!(number(&wide, &wide), 3, "3 before 7");
    assert_eq!(number(&join(&[ranks(&[1]), wide.clone()]), &join(&[ranks(&[2]), wide])), 26, "26 before 3");
    let busy = |n: usize| join(&[join(&vec![event(1); 32]), join(&vec![passive(&con(1)); n])]);
    // each of 32 events: 4, and 6 for each passive of one constant
    assert_eq!(number(&busy(11), &busy(9)), 0, "32 * (4 + 6 * 20) instructions");
    assert_eq!(number(&busy(11), &busy(10)), 13, "32 * (4 + 6 * 21), over 4,096");
    assert_eq!(check(&busy(11), &busy(10), &[], 0), Err(13), "13 before 27");
    let v = check(
        &join(&[said(1, 6), event(2), passive(&con(7))]),
        &join(&[said(1, 12), said(2, 9), said(3, 1), active(5, &[handler(0, 0, &name(0))])]),
        &[],
        room,
    )
    .unwrap();
    assert_eq!(
        v,
        join(&[said(1, 4), said(2, 9), said(3, 1), passive(&con(7)), active(5, &[handler(0, 0, &name(1))])]),
        "rights and names"
    );
    assert_eq!(check(&many(1), &passive(&param(3)), &[0; 31], room), Err(20), "31 bytes of parameters");
    assert!(check(&many(1), &passive(&param(3)), &[1; 32], room).is_ok(), "32 bytes");
}
