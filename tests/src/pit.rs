//! Puts from the pit, to lists of fewer than 64 records only: the bounds, the order of refusals, and turns of
//! the desk and the pit on one image.
use crate::afresh::refusal;
use crate::book::changed;
use crate::buildings::{built, tag, OLDER};
use crate::model::Rec;
use crate::pair::Terminal::{Desk, Pit};
use crate::pair::{Pair, Terminal, Told};
use crate::random::Random;
use crate::steps::nth;
use crate::Tally;

/// Puts a record: the list's count afterwards, or the refusal.
pub fn put(p: &mut Pair, by: Terminal, tag: u32, r: Rec, tally: &mut Tally) -> Result<u32, usize> {
    let refused = refusal(tally, |t| p.put_by(by, tag, r, t));
    refused.map_or(Ok(cix::count_space(&p.space, tag).unwrap()), Err)
}

/// Puts records until a tag's list has so many.
fn grow(p: &mut Pair, by: Terminal, tag: u32, count: u32, tally: &mut Tally) {
    let first = cix::count_space(&p.space, tag).unwrap() + 1;
    (first..=count).for_each(|n| assert_eq!(put(p, by, tag, nth(n), tally), Ok(n)));
}

pub fn cases(tally: &mut Tally) {
    for step in [0, 1] {
        below(step, tally);
        closed(step, tally);
    }
    no_room(tally);
}

/// Two lists of up to 64 records: a put from the pit leaves the bytes that the desk's leaves.
fn below(step: u32, tally: &mut Tally) {
    let mut desk = Pair::begun(24, step, tally);
    let mut pit = desk.clone();
    for n in 1..=64 {
        let r = [1, 0, 0, 0, (n * 37 % 101) as u8, 0, 9, n as u8];
        for tag in [9, 7] {
            assert_eq!(put(&mut desk, Desk, tag, r, tally), Ok(n));
            assert_eq!(put(&mut pit, Pit, tag, r, tally), Ok(n));
            assert!(pit.space == desk.space, "a list of {n}: not the bytes that the desk's put leaves");
        }
    }
    assert_eq!(put(&mut pit, Pit, 7, nth(101), tally), Err(17));
    assert_eq!(put(&mut desk, Desk, 7, nth(101), tally), Ok(65));
}

/// The desk's list of 70 is closed to the pit until it has 63; a listed call is 8 there too.
fn closed(step: u32, tally: &mut Tally) {
    let mut p = Pair::begun(14, step, tally);
    grow(&mut p, Desk, 7, 70, tally);
    assert_eq!(put(&mut p.clone(), Desk, 7, nth(0), tally), Ok(71));
    for n in (64..=70).rev() {
        assert_eq!(put(&mut p, Pit, 7, nth(0), tally), Err(17), "a list of {n}");
        assert_eq!(put(&mut p, Pit, 7, nth(n), tally), Err(8), "a listed call in a list of {n}");
        p.delete(7, nth(n), tally);
    }
    assert_eq!(put(&mut p, Pit, 7, nth(0), tally), Ok(64));
    assert_eq!(put(&mut p, Pit, 7, nth(64), tally), Err(17));
}

/// R = 9: a list of 64 to 70 records leaves one of 72 cells. A new tag is 12; with 70 the list is 17 first.
fn no_room(tally: &mut Tally) {
    let mut p = Pair::begun(9, 0, tally);
    grow(&mut p, Pit, 7, 64, tally);
    assert_eq!(put(&mut p, Pit, 9, nth(1), tally), Err(12));
    grow(&mut p, Desk, 7, 70, tally);
    assert_eq!(put(&mut p, Desk, 7, nth(71), tally), Err(12));
    assert_eq!(put(&mut p, Pit, 7, nth(71), tally), Err(17));
}

/// A list of 989 and 256 tags, of all buildings or, on an older image, of one: what is 10 from the desk is 17 from
/// the pit; 8, 19 and 11 are the same.
pub fn limits(step: u32, tally: &mut Tally) {
    for (owned, other) in [([16; 16], 19), (OLDER, 11)] {
        let mut p = built(owned, 300, step, tally);
        grow(&mut p, Desk, 7, 989, tally);
        for (by, full) in [(Desk, 10), (Pit, 17)] {
            assert_eq!(put(&mut p, by, 7, nth(990), tally), Err(full));
            assert_eq!(put(&mut p, by, 7, nth(989), tally), Err(8));
            assert_eq!(put(&mut p, by, tag(0, 256), nth(1), tally), Err(19));
            assert_eq!(put(&mut p, by, tag(9, 256), nth(1), tally), Err(other));
        }
    }
}

// ---- turns

/// Begun, edited, committed and recovered in turns, with any allowances: a list to which the desk does not put
/// in a turn has at most 64 records after it, or what it had. Answers how often 17 was met.
pub fn turns(turns: u64, rng: &mut Random, tally: &mut Tally) -> u64 {
    let tags = [0, 6, u32::MAX];
    let mut p = Pair::begun(40, rng.below(2), tally);
    tags.iter().for_each(|&tag| grow(&mut p, Desk, tag, 60, tally));
    p.commit(cix::ALL, Told::Stood, tally);
    p.open_book();
    let before = tally.refused[17];
    for _ in 0..turns {
        let lengths = tags.map(|tag| cix::count_image(&p.image, tag).unwrap());
        let desk = rng.tag(4); // the tag that the desk puts to in this turn: one of the three, or another
        p.begin(tally);
        for _ in 0..rng.below(16) {
            let tag = rng.tag(3);
            let by = if tag == desk { rng.terminal() } else { Pit };
            match rng.below(4) {
                0 => p.delete(tag, rng.listed(&p, tag, 40), tally),
                _ => p.put_by(by, tag, rng.record(40), tally),
            }
        }
        p.commit(rng.allowance(130 * changed(p.home(), &p.space) as u32 + 5), rng.told(), tally);
        while p.image[10] != 0 {
            p.recover(rng.allowance(2000), rng.told(), tally);
        }
        for (tag, had) in tags.into_iter().zip(lengths).filter(|t| t.0 != desk) {
            let has = cix::count_image(&p.image, tag).unwrap();
            assert!(has <= had.max(64), "the list of tag {tag} had {had} records and has {has}");
        }
    }
    let closed = tally.refused[17] - before;
    assert!(turns < 100 || closed > turns, "only {closed} puts from the pit met 17");
    closed
}
