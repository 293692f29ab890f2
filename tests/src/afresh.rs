//! Puts that find no room where they are placed, so that all zones are laid out afresh, and puts for
//! which all blocks together are too many.
use crate::book::changed;
use crate::caught::{cuts, Found};
use crate::model::{Home, Rec, MARKED};
use crate::pair::{dictionary, Pair, Terminal, Told};
use crate::random::Random;
use crate::steps::CAPACITIES;
use crate::Tally;
use std::collections::BTreeMap;

/// How a put ended. Its block is placed, or stays where it was; or all zones are laid out afresh.
#[derive(Debug, PartialEq)]
enum Put {
    Placed,
    Afresh,
    Refused(usize),
}

/// The refusal that a call meets, if any.
pub fn refusal(tally: &mut Tally, call: impl FnOnce(&mut Tally)) -> Option<usize> {
    let before = tally.refused;
    call(tally);
    (1..before.len()).find(|&n| tally.refused[n] > before[n])
}

/// Puts a record. The lists of other tags must still read the same, and a refusal changes no byte.
fn put(p: &mut Pair, by: Terminal, tag: u32, r: Rec, tally: &mut Tally) -> Put {
    let before = p.space.clone();
    let refused = refusal(tally, |t| p.put_by(by, tag, r, t));
    if let Some(n) = refused {
        assert!(p.space == before, "a refused put changed a byte");
        return Put::Refused(n);
    }
    for (other, _) in dictionary(&before).into_iter().filter(|e| e.0 != tag) {
        let (old, new) = (cix::show_space(&before, other), cix::show_space(&p.space, other));
        assert!(old == new, "the list of tag {other} after a put to tag {tag}");
    }
    let mut home = Home::read(&before).unwrap();
    home.change(tag, [home.list(tag), &[r]].concat());
    if home.afresh {
        Put::Afresh
    } else {
        Put::Placed
    }
}

// ---- cases, with cells that follow from the specification by hand

/// The n-th record of every list.
fn nth(n: u32) -> Rec {
    [1, 0, 0, 0, n as u8, 0, 9, 0]
}

/// Puts one more record to a tag's list.
fn more(p: &mut Pair, tag: u32, tally: &mut Tally) -> Put {
    put(p, Terminal::Desk, tag, nth(cix::count_space(&p.space, tag).unwrap() + 1), tally)
}

/// Puts records until a tag's list has so many.
fn grow(p: &mut Pair, tag: u32, count: u32, tally: &mut Tally) {
    while cix::count_space(&p.space, tag) != Ok(count) {
        assert_eq!(more(p, tag, tally), Put::Placed);
    }
}

fn cells(p: &Pair, right: &[(u32, u16)]) {
    assert_eq!(dictionary(&p.space), right, "tags and cells");
}

/// R = 2, and 11's sixth record comes next: it needs 7 cells behind 9, where 3 are left.
fn before_the_sixth_record(tally: &mut Tally) -> Pair {
    let mut p = Pair::begun(2, 0, tally);
    grow(&mut p, 7, 1, tally);
    grow(&mut p, 9, 6, tally);
    p.drop_tag(7, tally);
    grow(&mut p, 11, 5, tally);
    cells(&p, &[(9, 6), (11, 0)]);
    p
}

/// R = 3, and 1's fifth record comes next. When 1 is taken out, 3 fills its place before 2; there are 5
/// cells between 2 and 4, and 3 behind 4, where 1 needs 6.
fn before_the_last_fills_a_place(tally: &mut Tally) -> Pair {
    let mut p = Pair::begun(3, 0, tally);
    for tag in [1, 2, 3] {
        grow(&mut p, tag, 1, tally);
    }
    grow(&mut p, 4, 5, tally);
    grow(&mut p, 1, 4, tally);
    cells(&p, &[(1, 0), (2, 5), (3, 10), (4, 15)]);
    p
}

/// R = 3, and a put to tag 3 comes next. Placed at cell 0 it would lift 1 off, which then needs 9 cells
/// behind 2, where 6 are left.
fn before_a_lifted_block_finds_no_room(tally: &mut Tally) -> Pair {
    let mut p = Pair::begun(3, 0, tally);
    grow(&mut p, 1, 7, tally);
    grow(&mut p, 2, 6, tally);
    cells(&p, &[(1, 7), (2, 0)]);
    assert_eq!(more(&mut p, 2, tally), Put::Afresh);
    cells(&p, &[(1, 0), (2, 9)]);
    p
}

/// Step code 1, R = 2, and 11's fifth record comes next: it needs 8 cells behind 9, where 3 are left.
fn before_the_fifth_record(tally: &mut Tally) -> Pair {
    let mut p = Pair::begun(2, 1, tally);
    grow(&mut p, 7, 1, tally);
    grow(&mut p, 9, 5, tally);
    p.drop_tag(7, tally);
    grow(&mut p, 11, 4, tally);
    cells(&p, &[(9, 5), (11, 0)]);
    p
}

/// Step code 1, R = 4, and 1's fifth record comes next. When 1 is taken out, 5 fills its place before 2 and
/// 3; there are 5 cells between 3 and 4, and 4 behind 4, where 1 needs 8.
fn before_a_coarse_last_fills_a_place(tally: &mut Tally) -> Pair {
    let mut p = Pair::begun(4, 1, tally);
    for tag in [1, 2, 3, 5] {
        grow(&mut p, tag, 4, tally);
    }
    grow(&mut p, 4, 7, tally);
    cells(&p, &[(1, 0), (2, 5), (3, 10), (4, 20), (5, 15)]);
    p
}

/// Step code 1, R = 6, and a put to tag 3 comes next. Placed at cell 0 it would lift 1 off, which then needs
/// 19 cells behind 2, where 10 are left.
fn before_a_coarse_lifted_block_finds_no_room(tally: &mut Tally) -> Pair {
    let mut p = Pair::begun(6, 1, tally);
    grow(&mut p, 1, 12, tally);
    grow(&mut p, 2, 11, tally);
    cells(&p, &[(1, 12), (2, 0)]);
    assert_eq!(more(&mut p, 2, tally), Put::Afresh);
    cells(&p, &[(1, 0), (2, 19)]);
    p
}

pub fn cases(tally: &mut Tally) {
    let mut p = before_the_sixth_record(tally);
    assert_eq!(more(&mut p, 11, tally), Put::Afresh);
    cells(&p, &[(9, 0), (11, 7)]);
    assert_eq!(more(&mut p, 13, tally), Put::Refused(12));

    let mut p = before_the_last_fills_a_place(tally);
    assert_eq!(more(&mut p, 1, tally), Put::Afresh);
    cells(&p, &[(1, 16), (2, 5), (3, 0), (4, 10)]);

    let mut p = before_a_lifted_block_finds_no_room(tally);
    assert_eq!(more(&mut p, 3, tally), Put::Afresh);
    cells(&p, &[(1, 5), (2, 14), (3, 0)]);
    gap_stays(tally);
    too_many(tally);
    coarse_cases(tally);
}

fn coarse_cases(tally: &mut Tally) {
    let mut p = before_the_fifth_record(tally);
    assert_eq!(more(&mut p, 11, tally), Put::Afresh);
    cells(&p, &[(9, 0), (11, 8)]);
    assert_eq!(more(&mut p, 13, tally), Put::Refused(12));

    let mut p = before_a_coarse_last_fills_a_place(tally);
    assert_eq!(more(&mut p, 1, tally), Put::Afresh);
    cells(&p, &[(1, 23), (2, 5), (3, 10), (4, 15), (5, 0)]);

    let mut p = before_a_coarse_lifted_block_finds_no_room(tally);
    assert_eq!(more(&mut p, 3, tally), Put::Afresh);
    cells(&p, &[(1, 5), (2, 24), (3, 0)]);
    coarse_too_many(tally);
}

/// R = 2: a new tag finds room in the gap before 2, and the cell that is left there stays a gap.
fn gap_stays(tally: &mut Tally) {
    let mut p = Pair::begun(2, 0, tally);
    grow(&mut p, 2, 6, tally);
    grow(&mut p, 1, 5, tally);
    p.drop_tag(1, tally);
    cells(&p, &[(2, 6)]);
    assert_eq!(more(&mut p, 3, tally), Put::Placed);
    cells(&p, &[(2, 6), (3, 0)]);
}

/// Bench cases 4 and 5: 21 cells, then 20, where the area has 16.
fn too_many(tally: &mut Tally) {
    let mut p = Pair::begun(2, 0, tally);
    grow(&mut p, 7, 1, tally);
    grow(&mut p, 9, 1, tally);
    grow(&mut p, 7, 5, tally);
    grow(&mut p, 11, 1, tally);
    cells(&p, &[(7, 10), (9, 0), (11, 5)]);
    assert_eq!(more(&mut p, 13, tally), Put::Refused(12));
    p.delete(7, nth(5), tally);
    cells(&p, &[(7, 10), (9, 0), (11, 5)]);
    assert_eq!(more(&mut p, 13, tally), Put::Refused(12));
}

/// Step code 1: 18 cells, then 17, where the area has 16. From 5 to 7 records 7's list keeps its class.
fn coarse_too_many(tally: &mut Tally) {
    let mut p = Pair::begun(2, 1, tally);
    grow(&mut p, 7, 1, tally);
    grow(&mut p, 9, 1, tally);
    cells(&p, &[(7, 0), (9, 5)]);
    grow(&mut p, 7, 5, tally);
    cells(&p, &[(7, 5), (9, 0)]);
    assert_eq!(more(&mut p, 11, tally), Put::Refused(12));
    grow(&mut p, 7, 7, tally);
    cells(&p, &[(7, 5), (9, 0)]);
    assert_eq!(more(&mut p, 7, tally), Put::Refused(12));
}

// ---- random edits of small areas that are nearly full

/// The cells of all blocks, known from the lengths of their lists alone.
pub fn needed(step: u32, lengths: &BTreeMap<u32, usize>) -> usize {
    let size = |n: &usize| 1 + CAPACITIES[step as usize].iter().find(|c| *c >= n).unwrap();
    lengths.values().filter(|&&n| n > 0).map(size).sum()
}

/// Makes so many calls: a put is refused with 12 exactly if all blocks would be too many. Answers how
/// many puts laid all zones out afresh.
pub fn nearly_full(calls: u64, rng: &mut Random, tally: &mut Tally) -> u64 {
    let enough = tally.calls + calls;
    let mut afresh = 0;
    while tally.calls < enough {
        afresh += one_area(rng, tally);
    }
    assert!(calls < 10_000 || afresh > calls / 200, "only {afresh} puts laid all zones out afresh");
    afresh
}

fn one_area(rng: &mut Random, tally: &mut Tally) -> u64 {
    let (pages, step, tags) = (2 + rng.below(7), rng.below(2), 3 + rng.below(10));
    let mut p = Pair::begun(pages, step, tally);
    let mut lengths = BTreeMap::new();
    let mut afresh = 0;
    for _ in 0..400 {
        let tag = rng.tag(tags);
        let listed = rng.listed(&p, tag, 40);
        match rng.below(20) {
            0 => {
                p.drop_tag(tag, tally);
                lengths.remove(&tag);
            }
            1..=4 => {
                if refusal(tally, |t| p.delete(tag, listed, t)).is_none() {
                    *lengths.get_mut(&tag).unwrap() -= 1;
                }
            }
            _ => {
                let mut after = lengths.clone();
                *after.entry(tag).or_insert(0) += 1;
                let fits = needed(step, &after) <= 8 * pages as usize;
                match put(&mut p, rng.terminal(), tag, rng.record(40), tally) {
                    Put::Refused(8) => continue,
                    Put::Refused(12) => assert!(!fits, "12, though all blocks together would fit"),
                    Put::Refused(n) => panic!("a put is refused with {n}"),
                    how => {
                        assert!(fits, "done, though all blocks together do not fit");
                        afresh += (how == Put::Afresh) as u64;
                        lengths = after;
                    }
                }
            }
        }
    }
    afresh
}

// ---- a commit of such a put, cut

/// A switch-off during a commit of zones laid out afresh leaves the index from before or that one.
pub fn every_cut(tally: &mut Tally) -> Found {
    let told = [Told::Value(0), Told::Value(MARKED), Told::Stood, Told::Value(9)];
    let mut counts = Found::default();
    for (mut p, tag, stride) in [
        (before_the_sixth_record(tally), 11, 1),
        (before_the_last_fills_a_place(tally), 1, 40),
        (before_a_lifted_block_finds_no_room(tally), 3, 40),
        (before_the_fifth_record(tally), 11, 40),
        (before_a_coarse_last_fills_a_place(tally), 1, 40),
        (before_a_coarse_lifted_block_finds_no_room(tally), 3, 40),
    ] {
        p.commit(cix::ALL, Told::Stood, tally);
        p.open_book();
        assert_eq!(more(&mut p, tag, tally), Put::Afresh);
        let others: Vec<u32> = dictionary(p.home()).iter().map(|e| e.0).filter(|&t| t != tag).collect();
        let stores = 130 * changed(p.home(), &p.space) as u32 + 4;
        cuts(&p, 0..stores, &told, stride, &others, &mut counts, tally);
    }
    counts
}
