//! The step code: at format, in damaged bytes, at the bounds of every class, and where a workspace of one
//! code is committed to an image of the other.
use crate::afresh::refusal;
use crate::book::changed;
use crate::caught::{cuts, Found};
use crate::model::{Of, Rec, MARKED, STEP};
use crate::pair::{Pair, Told};
use crate::Tally;

/// The capacities of both codes, as the specification lists them.
#[rustfmt::skip]
pub const CAPACITIES: [&[usize]; 2] = [
    &[
        4, 5, 6, 8, 10, 12, 15, 18, 22, 27, 33, 40, 48, 58, 70, 84, 100, 120, 143, 171, 204, 243, 290, 346, 412,
        491, 585, 697, 830, 989,
    ],
    &[4, 7, 11, 18, 28, 44, 69, 107, 166, 258, 400, 620, 961, 989],
];

/// The n-th record of every list.
pub fn nth(n: u32) -> Rec {
    let s = n.to_be_bytes();
    [1, s[0], s[1], s[2], s[3], 0, 9, 0]
}

fn put_all(p: &mut Pair, tag: u32, count: u32, tally: &mut Tally) {
    (1..=count).for_each(|n| p.put(tag, nth(n), tally));
}

// ---- format

/// Codes and other numbers with right sizes and wrong ones: 14 for every number but 0 and 1.
pub fn formats(tally: &mut Tally) {
    for step in [0, 1, 2, 3, 165, 255, 256, 257, 1 << 16, 1 << 31, u32::MAX] {
        for (entries, pages) in [(28, 2), (1, 1), (29, 2), (0, 2), (28, 0), (28, 1025), (28, 3)] {
            for stores in [0, 9, cix::ALL] {
                let mut p = Pair::formatted(28, 2, 0, tally);
                let refused = refusal(tally, |t| p.format(entries, pages, step, stores, t));
                let right = step < 2 && (entries, pages) == (28, 2);
                assert_eq!(refused, (!right).then_some(14), "format with step code {step}");
            }
        }
    }
}

/// Every cut of a format over an index of the other code: it leaves the old bytes, or bytes refused with 1.
pub fn cut_formats(tally: &mut Tally) {
    for step in [0, 1] {
        let old = Pair::formatted(1, 1, 1 - step, tally);
        let need = old.image.len() as u32 + 1;
        for stores in 0..need + 2 {
            let mut p = old.clone();
            p.format(1, 1, step, stores, tally);
            let refused = refusal(tally, |t| p.count(Of::Image, 7, t));
            assert_eq!(refused, (0 < stores && stores < need).then_some(1), "format cut after {stores} stores");
            let found = if stores == 0 { 1 - step } else { step };
            assert!(refused.is_some() || p.home()[STEP] as u32 == found, "the code after {stores} stores");
        }
    }
}

// ---- damage

/// Values at the code's byte, at the five zeros behind it, and in the zone entries of classes 14 up, in the image
/// and in the workspace. Up to 5 records the home is sound with both codes, as zeros follow its last block; with 6
/// only with its own.
pub fn damage(tally: &mut Tally) {
    for (step, count) in [(0, 4), (0, 5), (0, 6), (1, 4), (1, 5), (1, 6)] {
        let mut p = Pair::begun(2, step, tally);
        put_all(&mut p, 9, 1, tally);
        put_all(&mut p, 7, count, tally);
        p.commit(cix::ALL, Told::Stood, tally);
        let home = p.image.len() - p.space.len();
        for at in 2 + 4 * 14..STEP + 6 {
            for value in (0..=255).step_by(if at < STEP { 51 } else { 1 }) {
                let right = if count < 6 { value < 2 } else { value as u32 == step };
                let sound = if at == STEP { right } else { value == 0 };
                let mut image = p.clone();
                image.image[home + at] = value;
                image_calls(&image, (!sound).then_some(5), tally);
                let mut space = p.clone();
                space.space[at] = value;
                space_calls(&space, (!sound).then_some(7), tally);
            }
        }
    }
}

/// Every call that looks at an image's home must be refused so, and recover not.
fn image_calls(p: &Pair, told: Option<usize>, tally: &mut Tally) {
    let mut refused = |call: &dyn Fn(&mut Pair, &mut Tally)| refusal(tally, |t| call(&mut p.clone(), t));
    assert_eq!(refused(&|p, t| p.begin(t)), told);
    assert_eq!(refused(&|p, t| p.commit(cix::ALL, Told::Stood, t)), told);
    assert_eq!(refused(&|p, t| p.count(Of::Image, 7, t)), told);
    assert_eq!(refused(&|p, t| p.show(Of::Image, 7, t)), None);
    assert_eq!(refused(&|p, t| p.recover(cix::ALL, Told::Stood, t)), None);
}

fn space_calls(p: &Pair, told: Option<usize>, tally: &mut Tally) {
    let mut refused = |call: &dyn Fn(&mut Pair, &mut Tally)| refusal(tally, |t| call(&mut p.clone(), t));
    assert_eq!(refused(&|p, t| p.put(9, nth(2), t)), told);
    assert_eq!(refused(&|p, t| p.put_pit(9, nth(2), t)), told);
    assert_eq!(refused(&|p, t| p.delete(7, nth(1), t)), told);
    assert_eq!(refused(&|p, t| p.set_minutes(7, nth(1), t)), told);
    assert_eq!(refused(&|p, t| p.drop_tag(7, t)), told);
    assert_eq!(refused(&|p, t| p.commit(cix::ALL, Told::Stood, t)), told);
    assert_eq!(refused(&|p, t| p.count(Of::Space, 7, t)), told);
    assert_eq!(refused(&|p, t| p.show(Of::Space, 7, t)), None);
    assert_eq!(refused(&|p, t| p.begin(t)), None);
}

// ---- classes

/// Beside two short lists one grows to 989 records, meets 10, and shrinks until it is gone.
pub fn bounds(tally: &mut Tally) {
    for step in [0, 1] {
        let mut p = Pair::begun(1024, step, tally);
        put_all(&mut p, 6, 1, tally);
        put_all(&mut p, 8, 1, tally);
        for n in 1..=989 {
            p.put(7, nth(n), tally);
            in_its_class(&p, step, n);
        }
        assert_eq!(refusal(tally, |t| p.put(7, nth(990), t)), Some(10));
        for n in (0..989).rev() {
            p.delete(7, nth(n + 1), tally);
            in_its_class(&p, step, n);
        }
    }
}

/// The block counts of all classes, where tag 7 has n records and two other tags have one.
fn in_its_class(p: &Pair, step: u32, n: u32) {
    let mut right = [0; 30];
    right[0] = 2;
    if n > 0 {
        right[CAPACITIES[step as usize].iter().position(|&c| c as u32 >= n).unwrap()] += 1;
    }
    let counts: Vec<u16> = p.space[2..STEP].chunks(4).map(|e| u16::from_be_bytes([e[2], e[3]])).collect();
    assert_eq!(counts, right, "block counts, step code {step}, a list of {n}");
}

// ---- the other code

/// A workspace of the other code with the same lists: a commit of it, cut everywhere, leaves the old index or
/// the new one. Page 1, where the code is, is always among those that differ.
pub fn every_cut(tally: &mut Tally) -> Found {
    let told = [Told::Value(0), Told::Value(MARKED), Told::Stood, Told::Value(9)];
    let mut counts = Found::default();
    for (step, count) in [(0, 4), (1, 4), (0, 6), (1, 6)] {
        let mut p = Pair::begun(2, step, tally);
        put_all(&mut p, 9, 1, tally);
        put_all(&mut p, 7, count, tally);
        p.commit(cix::ALL, Told::Stood, tally);
        p.open_book();
        p.change_step(tally);
        assert!(p.home()[64..128] != p.space[64..128], "page 1 must differ");
        let stores = 130 * changed(p.home(), &p.space) as u32 + 4;
        cuts(&p, 0..stores, &told, 40, &[7, 9], &mut counts, tally);
        p.commit(cix::ALL, Told::Stood, tally);
        assert_eq!(p.home()[STEP] as u32, 1 - step, "the image's code after the commit");
        p.begin(tally);
        put_all(&mut p, 7, 8, tally);
    }
    counts
}
