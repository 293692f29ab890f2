//! Third in line: how many of a tag's calls stand before a primary part, and that a put gives the number
//! foretold, in a workspace and through a commit.
use crate::book::changed;
use crate::caught::Found;
use crate::model::{records, Of, Rec, MARKED};
use crate::pair::{dictionary, Pair, Terminal, Told};
use crate::random::Random;
use crate::Tally;

/// Primary parts at the bounds of each field, in order.
fn parts() -> Vec<Rec> {
    let mut all = Vec::new();
    for level in [0, 1, 127, 128, 255] {
        for second in [0, 1, 255, 256, 0x7fff_ffff, 0x8000_0000, u32::MAX] {
            for phone in [0, 1, 255, 256, 0x7fff, 0x8000, 0xffff_u16] {
                let (s, p) = (second.to_be_bytes(), phone.to_be_bytes());
                all.push([level, s[0], s[1], s[2], s[3], p[0], p[1], 7]);
            }
        }
    }
    all
}

/// Every second part is listed, and each is asked for with any minutes: half as many stand before it. An
/// unknown tag has none.
pub fn bounds(tally: &mut Tally) {
    let all = parts();
    for step in [0, 1] {
        let mut p = Pair::begun(64, step, tally);
        all.iter().step_by(2).rev().for_each(|&r| p.put(7, r, tally));
        p.commit(cix::ALL, Told::Stood, tally);
        for (i, &part) in all.iter().enumerate() {
            for minutes in [0, 7, 255] {
                let mut r = part;
                r[7] = minutes;
                for of in [Of::Image, Of::Space] {
                    assert_eq!(p.rank(of, 7, r, tally), Ok(i as u32 / 2 + i as u32 % 2), "the part of number {i}");
                    assert_eq!(p.rank(of, 9, r, tally), Ok(0), "an unknown tag");
                }
            }
        }
    }
}

// ---- in a workspace

fn list(space: &[u8], tag: u32) -> Vec<Rec> {
    records(cix::show_space(space, tag))
}

/// Puts to small and long lists: how many were done, and how many refused.
pub fn foretold(puts: u64, rng: &mut Random, tally: &mut Tally) -> (u64, u64) {
    let (mut done, mut refused) = (0, 0);
    while done + refused < puts {
        let mut p = Pair::begun([1, 2, 16, 60, 200][rng.below(5) as usize], rng.below(2), tally);
        let (tags, seconds) = ([1, 2, 6][rng.below(3) as usize], [3, 20, 2000][rng.below(3) as usize]);
        for _ in 0..1 + rng.below(300) {
            if put(&mut p, rng.terminal(), rng.tag(tags), rng.record(seconds), tally) {
                done += 1;
            } else {
                refused += 1;
            }
        }
    }
    (done, refused)
}

/// Puts a record, and answers whether it was done. It stands at the place foretold then. Another call of
/// the tag has one more before it exactly if it stands behind; other tags' ranks stay.
fn put(p: &mut Pair, by: Terminal, tag: u32, r: Rec, tally: &mut Tally) -> bool {
    let before = p.clone();
    let place = p.rank(Of::Space, tag, r, tally);
    p.put_by(by, tag, r, tally);
    assert_eq!(p.rank(Of::Space, tag, r, tally), place, "the number foretold");
    let done = p.space != before.space;
    let (old, new) = (list(&before.space, tag), list(&p.space, tag));
    if done {
        assert_eq!(new[place.unwrap() as usize], r, "the record at the place foretold");
    }
    let few = old.len() / 20 + 1;
    for (i, &x) in old.iter().enumerate().step_by(few) {
        let behind = done && r[..7] < x[..7];
        assert_eq!(before.rank(Of::Space, tag, x, tally), Ok(i as u32), "a listed call's place");
        assert_eq!(p.rank(Of::Space, tag, x, tally), Ok(i as u32 + behind as u32), "its place after a put");
    }
    for (other, _) in dictionary(&before.space).into_iter().filter(|e| e.0 != tag) {
        let rank = before.rank(Of::Space, other, r, tally);
        assert_eq!(p.rank(Of::Space, other, r, tally), rank, "the rank in the list of tag {other}");
    }
    done
}

// ---- through a commit

/// Asked of an image, put in what was begun from it and committed, with every cut: as soon as the image
/// gives a number, it is the one foretold.
pub fn every_cut(tally: &mut Tally) -> Found {
    let told = [Told::Value(0), Told::Value(MARKED), Told::Stood, Told::Meant, Told::Value(9)];
    let mut counts = Found::default();
    for phone in 0..5 {
        let mut p = Pair::begun(2, 0, tally);
        (1..4).for_each(|n| p.put(7, [1, 0, 0, 0, 100, 0, n, 0], tally));
        p.commit(cix::ALL, Told::Stood, tally);
        let r = [1, 0, 0, 0, 100, 0, phone, 5];
        let place = p.rank(Of::Image, 7, r, tally);
        assert_eq!(place, Ok(phone.saturating_sub(1) as u32));
        p.put(7, r, tally);
        let old = p.home().to_vec();
        for n in 0..130 * changed(&old, &p.space) as u32 + 5 {
            for value in told {
                let mut cut = p.clone();
                cut.commit(n, value, tally);
                if cut.rank(Of::Image, 7, r, tally) == Err(3) {
                    cut.recover(cix::ALL, Told::Stood, tally);
                }
                assert_eq!(cut.rank(Of::Image, 7, r, tally), place, "cut after {n} stores");
                *if cut.home() == old { &mut counts.old } else { &mut counts.new } += 1;
            }
        }
    }
    counts
}
