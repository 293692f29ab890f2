//! A fair part of the tags: each of the 16 buildings is sure of 8. The bounds, the order of refusals, older images
//! on which the tags are not so kept, and turns of edits, commits and recoveries.
use crate::afresh::refusal;
use crate::book::changed;
use crate::model::{home_at, Of};
use crate::pair::Terminal::{Desk, Pit};
use crate::pair::{dictionary, Pair, Terminal, Told};
use crate::pit::put;
use crate::random::Random;
use crate::steps::nth;
use crate::Tally;

/// The n-th tag of a building.
pub fn tag(building: usize, n: u32) -> u32 {
    (building as u32) << 28 | n
}

/// How many tags each building has.
fn owned(home: &[u8]) -> [u32; 16] {
    let mut owned = [0; 16];
    dictionary(home).iter().for_each(|e| owned[e.0 as usize >> 28] += 1);
    owned
}

/// The tags that are there and those that buildings below 8 still lack.
fn reserve(home: &[u8]) -> u32 {
    owned(home).iter().map(|&n| n.max(8)).sum()
}

/// A begun image on which each building has so many tags, its first ones, of one record. Its bytes are written
/// here, as an older image may have more than puts allow.
pub fn built(owned: [u32; 16], pages: u32, step: u32, tally: &mut Tally) -> Pair {
    let mut p = Pair::formatted(26 + pages, pages, step, tally);
    let at = home_at(&p.image);
    let home = &mut p.image[at..];
    let tags: Vec<u32> = (0..16).flat_map(|b| (0..owned[b]).map(move |n| tag(b, n))).collect();
    for (i, t) in tags.iter().enumerate() {
        let (entry, block) = (128 + 6 * i, 1664 + 40 * i);
        home[entry..entry + 4].copy_from_slice(&t.to_be_bytes());
        home[entry + 4..entry + 6].copy_from_slice(&(5 * i as u16).to_be_bytes());
        home[block..block + 4].copy_from_slice(&t.to_be_bytes());
        home[block + 5] = 1;
        home[block + 8..block + 16].copy_from_slice(&nth(1));
    }
    let count = (tags.len() as u16).to_be_bytes();
    home[..2].copy_from_slice(&count);
    home[4..6].copy_from_slice(&count); // the blocks of class 0, from cell 0 on
    assert_eq!(refusal(tally, |t| p.begin(t)), None, "the home built is not sound");
    p
}

/// One building has all 256 tags.
pub const OLDER: [u32; 16] = [256, 0, 0, 0, 0, 0, 0, 0, 0, 0, 0, 0, 0, 0, 0, 0];

/// Puts a record to a tag, whose list never gets more than four so: its count, or the refusal. Of a new tag that
/// must be what the reserve says, where all blocks are of class 0.
fn add(p: &mut Pair, by: Terminal, tag: u32, tally: &mut Tally) -> Result<u32, usize> {
    let (had, reserve) = (owned(&p.space)[tag as usize >> 28], reserve(&p.space));
    let (tags, count) = (dictionary(&p.space).len(), cix::count_space(&p.space, tag).unwrap());
    let told = if had >= 8 && reserve >= 256 {
        Err(19)
    } else if tags == 256 {
        Err(11)
    } else if 40 * (tags + 1) > p.space.len() - 1664 {
        Err(12)
    } else {
        Ok(1)
    };
    let answer = put(p, by, tag, nth(count.min(3) + 1), tally);
    if count == 0 {
        assert_eq!(answer, told, "a new tag of a building with {had} of {tags} tags, reserve {reserve}");
    }
    answer
}

/// A new tag of a building is refused so, from the desk and from the pit.
fn refused(p: &mut Pair, building: usize, told: usize, tally: &mut Tally) {
    for by in [Desk, Pit] {
        assert_eq!(add(p, by, tag(building, 999), tally), Err(told), "a new tag of building {building}");
    }
}

/// Adds a building's tags from one number to another.
fn add_all(p: &mut Pair, building: usize, numbers: std::ops::Range<u32>, tally: &mut Tally) {
    for n in numbers {
        let by = if n % 2 == 0 { Desk } else { Pit };
        assert_eq!(add(p, by, tag(building, n), tally), Ok(1), "tag {n} of building {building}");
    }
}

// ---- cases

pub fn cases(tally: &mut Tally) {
    for step in [0, 1] {
        [0, 7, 15].into_iter().for_each(|b| one_building(b, step, tally));
        all_buildings(step, tally);
        full_area(step, tally);
        dropped(step, tally);
        older(step, tally);
    }
}

/// A building with 136 tags leaves 120, all kept for the others: each of them gets 8 and no more.
fn one_building(most: usize, step: u32, tally: &mut Tally) {
    let mut p = Pair::begun(170, step, tally);
    add_all(&mut p, most, 0..136, tally);
    refused(&mut p, most, 19, tally);
    for other in (0..16).filter(|&b| b != most) {
        add_all(&mut p, other, 0..8, tally);
        refused(&mut p, other, 19, tally);
        refused(&mut p, most, 19, tally);
    }
    assert_eq!(dictionary(&p.space).len(), 256);
    for n in [0, 135] {
        assert_eq!(add(&mut p, Desk, tag(most, n), tally), Ok(2), "a listed tag");
        assert_eq!(add(&mut p, Pit, tag(most, n), tally), Ok(3), "a listed tag");
        assert_eq!(put(&mut p, Desk, tag(most, n), nth(2), tally), Err(8));
    }
    p.commit(cix::ALL, Told::Stood, tally);
    assert_eq!(cix::count_image(&p.image, tag(most, 135)), Ok(3));
}

/// Where all have 8, each may add one as long as there are fewer than 256: 16 each, or one has 136.
fn all_buildings(step: u32, tally: &mut Tally) {
    let mut p = Pair::begun(170, step, tally);
    (0..16).for_each(|b| add_all(&mut p, b, 0..8, tally));
    let mut one = p.clone();
    add_all(&mut one, 9, 8..136, tally);
    for n in 8..16 {
        (0..16).for_each(|b| add_all(&mut p, b, n..n + 1, tally));
    }
    for b in 0..16 {
        refused(&mut one, b, 19, tally);
        refused(&mut p, b, 19, tally);
    }
}

/// R = 85: 136 blocks fill the area. A new tag is 19 where the building has them all, and 12 where it has none, as
/// is a listed tag's fifth record.
fn full_area(step: u32, tally: &mut Tally) {
    let mut p = Pair::begun(85, step, tally);
    add_all(&mut p, 3, 0..136, tally);
    refused(&mut p, 3, 19, tally);
    refused(&mut p, 4, 12, tally);
    for n in 2..=4 {
        assert_eq!(add(&mut p, Pit, tag(3, 7), tally), Ok(n));
    }
    assert_eq!(put(&mut p, Pit, tag(3, 7), nth(5), tally), Err(12));
    p.drop_tag(tag(3, 7), tally);
    add_all(&mut p, 4, 0..1, tally);
    refused(&mut p, 3, 12, tally);
    refused(&mut p, 4, 12, tally);
}

/// Building 0 has 136 tags, 1 has 8. A tag that lost its last record is new again. A drop makes room for another
/// tag where the building had 9 or more, not where it had 8 or fewer.
fn dropped(step: u32, tally: &mut Tally) {
    let mut p = built(parts(&[136, 8]), 170, step, tally);
    refused(&mut p, 1, 19, tally);
    p.delete(tag(0, 5), nth(1), tally);
    let mut again = p.clone();
    add_all(&mut p, 1, 8..9, tally);
    for by in [Desk, Pit] {
        assert_eq!(put(&mut p, by, tag(0, 5), nth(1), tally), Err(19), "the record deleted");
    }
    add_all(&mut again, 0, 5..6, tally);
    refused(&mut again, 0, 19, tally);
    for (building, n) in [(1, 3), (0, 5)] {
        p.drop_tag(tag(1, 3), tally);
        add_all(&mut p, building, n..n + 1, tally);
        refused(&mut p, building, 19, tally);
    }
    for n in 4..8 {
        p.drop_tag(tag(1, n), tally);
        refused(&mut p, 0, 19, tally);
    }
    add_all(&mut p, 1, 3..7, tally);
    refused(&mut p, 1, 19, tally);
}

/// The first buildings have so many tags, the others none.
fn parts(first: &[u32]) -> [u32; 16] {
    std::array::from_fn(|b| first.get(b).copied().unwrap_or(0))
}

/// 256 tags of one building are read as ever. It adds none until the 15 others have their 8 or can get them; the
/// others add as soon as one is dropped.
fn older(step: u32, tally: &mut Tally) {
    let mut p = built(OLDER, 170, step, tally);
    for n in 0..256 {
        for of in [Of::Image, Of::Space] {
            assert_eq!(refusal(tally, |t| p.count(of, tag(0, n), t)), None);
            assert_eq!(refusal(tally, |t| p.show(of, tag(0, n), t)), None);
            assert_eq!(p.rank(of, tag(0, n), nth(2), tally), Ok(1), "tag {n} has one record before its second");
        }
        assert_eq!(cix::show_image(&p.image, tag(0, n)), nth(1), "the list of tag {n}");
    }
    assert_eq!(add(&mut p, Desk, tag(0, 255), tally), Ok(2), "a listed tag");
    let mut waiting = p.clone();
    for n in 0..120 {
        let other = 1 + n as usize % 15;
        refused(&mut p, 0, 19, tally);
        refused(&mut p, other, 11, tally);
        p.drop_tag(tag(0, n), tally);
        waiting.drop_tag(tag(0, n), tally);
        refused(&mut p, 0, 19, tally);
        refused(&mut waiting, 0, 19, tally);
        add_all(&mut p, other, n / 15..n / 15 + 1, tally);
    }
    for p in [&mut p, &mut waiting] {
        assert_eq!(reserve(&p.space), 256);
        p.drop_tag(tag(0, 120), tally);
        add_all(p, 0, 120..121, tally);
        refused(p, 0, 19, tally);
    }
    assert_eq!(owned(&p.space), std::array::from_fn(|b| if b == 0 { 136 } else { 8 }));
    (0..16).for_each(|b| refused(&mut p, b, 19, tally));
    p.commit(cix::ALL, Told::Stood, tally);
    assert_eq!(cix::count_image(&p.image, tag(15, 7)), Ok(1));
}

// ---- random homes

/// Some tags of each building, of most about 8, of one many; older images among them.
fn any_parts(rng: &mut Random) -> [u32; 16] {
    let mut parts = [0; 16].map(|_| [0, 3, 7, 8, 8, 9, 12, 16][rng.below(8) as usize]);
    let rest = 256 - parts.iter().sum::<u32>();
    parts[rng.below(16) as usize] += if rng.one_in(2) { rest } else { rng.below(rest + 1) };
    parts
}

/// Random edits of random homes, all compared. Answers how often 19 was met, and 11.
pub fn homes(homes: u64, rng: &mut Random, tally: &mut Tally) -> (u64, u64) {
    let before = tally.refused;
    for _ in 0..homes {
        let parts = any_parts(rng);
        let pages = (5 * parts.iter().sum::<u32>()).div_ceil(8).max(1) + rng.below(20);
        let mut p = built(parts, pages, rng.below(2), tally);
        for _ in 0..40 {
            let any = tag(rng.below(16) as usize, rng.below(300));
            let listed = dictionary(&p.space).get(rng.below(256) as usize).map_or(any, |e| e.0);
            match rng.below(10) {
                0 | 1 => p.drop_tag(listed, tally),
                2 => p.delete(listed, nth(1), tally),
                3 => _ = add(&mut p, rng.terminal(), listed, tally),
                _ => _ = add(&mut p, rng.terminal(), any, tally),
            }
        }
        p.commit(rng.allowance(2000), rng.told(), tally);
    }
    let [kept, full] = [19, 11].map(|n| tally.refused[n] - before[n]);
    assert!(homes < 100 || kept > 2 * homes && full > homes / 10, "19 was met {kept} times, 11 {full} times");
    (kept, full)
}

// ---- turns

/// From a formatted image on, begun, edited, committed and recovered in turns with any allowances: while the mark is
/// 0 the reserve is at most 256, no put is 11, and no building below 8 is turned away for tags. Answers how often
/// 19 was met.
pub fn turns(turns: u64, step: u32, rng: &mut Random, tally: &mut Tally) -> u64 {
    let mut p = Pair::formatted(186, 160, step, tally);
    p.open_book();
    let before = tally.refused;
    for _ in 0..turns {
        p.begin(tally);
        for _ in 0..rng.below(60) {
            let building = if rng.one_in(4) { 6 } else { rng.below(16) as usize };
            let tag = tag(building, rng.below(if building == 6 { 150 } else { 20 }));
            let r = nth(1 + rng.below(4)); // four at most, so that 256 blocks fit
            match rng.below(40) {
                0..=2 => p.drop_tag(tag, tally),
                3..=5 => p.delete(tag, r, tally),
                6 => p.set_minutes(tag, r, tally),
                _ => {
                    let below = owned(&p.space)[building] < 8;
                    let met = refusal(tally, |t| p.put_by(rng.terminal(), tag, r, t));
                    assert!(!below || met.is_none_or(|n| n == 8), "a building below 8 is turned away with {met:?}");
                }
            }
        }
        p.commit(rng.allowance(130 * changed(p.home(), &p.space) as u32 + 5), rng.told(), tally);
        for _ in 0..rng.below(4) {
            p.recover(rng.allowance(2000), rng.told(), tally);
        }
        if p.image[10] == 0 {
            assert!(reserve(p.home()) <= 256, "the reserve is {}", reserve(p.home()));
        }
    }
    assert_eq!(tally.refused[11], before[11], "a put met 11");
    let met = tally.refused[19] - before[19];
    assert!(turns < 200 || met > turns, "only {met} puts met 19");
    met
}
