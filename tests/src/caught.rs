//! Commits and recoveries that are cut in the middle of a byte, which then holds any value: the index
//! found afterwards, and the book of the whole list.
use crate::book::{changed, Book};
use crate::model::{home_at, Of, MARKED};
use crate::pair::{Pair, Told};
use crate::random::Random;
use crate::{edit, Tally};
use std::cmp::Ordering::{Equal, Greater, Less};

/// How often the old index was found after a cut commit, and how often the new one.
#[derive(Default)]
pub struct Found {
    pub old: u64,
    pub new: u64,
}

fn book(p: &Pair) -> &Book {
    p.book.as_ref().unwrap()
}

/// Checks what the book says of the image, and answers what a whole recovery leaves.
fn found(p: &Pair, tally: &mut Tally) -> Pair {
    let book = book(p);
    assert_eq!(p.image[10], book.mark, "the image's mark, the book's");
    assert_eq!(book.mark == MARKED, book.owed > 0, "pages are owed exactly with mark 165");
    assert!(book.mark == MARKED || p.home() == book.kept, "home is not what is kept");
    let mut whole = p.clone();
    whole.recover(cix::ALL, Told::Stood, tally);
    assert_eq!(whole.image[10], 0, "the mark after a whole recovery");
    assert!(whole.home() == book.kept, "a whole recovery does not leave what is kept");
    whole
}

// ---- every cut, on small images

const TOLD: [Told; 5] = [Told::Value(0), Told::Value(MARKED), Told::Stood, Told::Meant, Told::Value(9)];

/// Every cut of a commit of one page, every value at the stores of its mark, and every cut of a commit
/// of three pages.
pub fn every_cut(tally: &mut Tally) -> Found {
    let mut three = Pair::begun(2, 0, tally);
    three.put(7, [1, 0, 0, 0, 100, 0, 9, 0], tally);
    let mut one = three.clone();
    one.commit(cix::ALL, Told::Stood, tally);
    one.set_minutes(7, [1, 0, 0, 0, 100, 0, 9, 5], tally);
    one.open_book();
    three.open_book();
    let all: Vec<Told> = (0..=255).map(Told::Value).collect();
    let mut counts = Found::default();
    cuts(&one, 0..134, &TOLD, 1, &[], &mut counts, tally);
    cuts(&one, [68, 133], &all, 65, &[], &mut counts, tally);
    cuts(&three, 0..394, &TOLD, 1, &[], &mut counts, tally);
    counts
}

/// The commit cut after each of `made` stores, then a recovery cut at its last store and at each
/// `stride` stores before. Each byte caught holds each of `told`. The lists of `same` are the old ones in
/// whichever index is found.
pub fn cuts(
    p: &Pair,
    made: impl IntoIterator<Item = u32>,
    told: &[Told],
    stride: usize,
    same: &[u32],
    counts: &mut Found,
    tally: &mut Tally,
) {
    let (old, new) = (p.home(), &p.space[..]);
    let mark = 66 * changed(old, new) as u32 + 2;
    let lists: Vec<&[u8]> = same.iter().map(|&tag| cix::show_image(&p.image, tag)).collect();
    for n in made {
        for &first in told {
            let mut cut = p.clone();
            cut.commit(n, first, tally);
            cut.count(Of::Image, 7, tally);
            let must = match (n.cmp(&mark), cut.image[10]) {
                (Less, _) | (Equal, 0) => Some(old),
                (Greater, _) | (Equal, MARKED) => Some(new),
                (Equal, _) => None,
            };
            let mut count = |p: &Pair, tally: &mut Tally| {
                let whole = found(p, tally);
                let home = whole.home();
                if let Some(index) = must {
                    assert!(home == index, "cut after {n} stores: not the index that must be found");
                }
                if home == old {
                    counts.old += 1;
                } else {
                    assert!(home == new, "cut after {n} stores: neither the old index nor the new one");
                    counts.new += 1;
                }
                for (&tag, &list) in same.iter().zip(&lists) {
                    let shown = cix::show_image(&whole.image, tag);
                    assert!(shown == list, "cut after {n} stores: not the list of tag {tag}");
                }
            };
            count(&cut, tally);
            for m in (0..book(&cut).need()).rev().step_by(stride) {
                for &second in told {
                    let mut again = cut.clone();
                    again.recover(m, second, tally);
                    count(&again, tally);
                }
            }
        }
    }
}

// ---- random lists

/// Commits and recoveries, one after another, on an image with any index, log and entry count.
pub fn list(rng: &mut Random, tally: &mut Tally) {
    let pages = 1 + if rng.one_in(4) { rng.below(40) } else { rng.below(4) };
    let entries = if rng.one_in(2) { 26 + pages } else { 1 + rng.below(26 + pages) };
    let mut p = Pair::formatted(entries, pages, rng.below(2), tally);
    p.begin(tally);
    for _ in 0..rng.below(40) {
        p.put_by(rng.terminal(), rng.tag(6), rng.record(20), tally);
    }
    let at = home_at(&p.image);
    p.image[at..].copy_from_slice(&p.space);
    for i in (8..10).chain(64..at) {
        p.image[i] = rng.next() as u8;
    }
    p.open_book();
    let sizes = p.image[..8].to_vec();
    for _ in 0..30 {
        match rng.below(8) {
            0..=2 => {
                let n = allowance(rng, 0, book(&p).need());
                p.recover(n, rng.told(), tally);
            }
            3 => {
                let space = p.space.clone();
                if rng.one_in(2) {
                    rng.spoil(&mut p.space);
                } else {
                    p.space.resize(rng.below(2 * space.len() as u32) as usize, 0);
                }
                commit(&mut p, rng, tally);
                p.space = space;
            }
            _ => {
                if rng.one_in(2) {
                    p.space = book(&p).kept.clone();
                }
                if rng.one_in(8) {
                    p.change_step(tally);
                }
                for _ in 0..rng.below(3) {
                    edit(&mut p, rng, 6, 20, tally);
                }
                commit(&mut p, rng, tally);
            }
        }
        found(&p, tally);
        assert_eq!(p.image[..8], sizes, "the head's sizes");
    }
}

fn commit(p: &mut Pair, rng: &mut Random, tally: &mut Tally) {
    let k = changed(&p.space, &book(p).kept) as u32;
    p.commit(allowance(rng, 66 * k + 1, 130 * k + 4), rng.told(), tally);
}

/// Often near the mark's first store, or near its other one, which is the last of all.
fn allowance(rng: &mut Random, mark: u32, need: u32) -> u32 {
    match rng.below(6) {
        0 => cix::ALL,
        1 | 2 => need.saturating_sub(rng.below(3)),
        3 | 4 => mark + rng.below(3),
        _ => rng.below(need + 1),
    }
}
