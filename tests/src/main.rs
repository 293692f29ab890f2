//! Holds the library against the model: `hold [CALLS [SEED]]` makes so many random calls. Every call
//! is made of both, and its answer and every lent byte are compared. From 100,000 calls on, every cut
//! is tried, and the program `calls` is held against the model too.
mod afresh;
mod book;
mod buildings;
mod calls;
mod caught;
mod controllers;
mod input;
mod lines;
mod model;
mod pair;
mod pit;
mod random;
mod ranks;
mod spoiled;
mod steps;

use afresh::refusal;
use buildings::tag;
use model::Of;
use pair::{Pair, Terminal, Told};
use random::Random;
use std::time::{Instant, SystemTime, UNIX_EPOCH};

fn main() {
    let mut args = std::env::args().skip(1).map(|a| a.parse::<u64>().expect("a number"));
    let calls = args.next().unwrap_or(1_000_000);
    let seed = args
        .next()
        .unwrap_or_else(|| SystemTime::now().duration_since(UNIX_EPOCH).unwrap().as_micros() as u64);
    println!("{} changed images answered as told", spoiled::compare());
    println!("seed {seed}");
    if calls >= 100_000 {
        calls::compare(seed);
    }
    let start = Instant::now();
    let mut tally = Tally::default();
    let mut rng = Random::new(seed);
    for _ in 0..calls / 200 {
        caught::list(&mut rng, &mut tally);
    }
    println!("random lists with bytes caught halfway: {} calls, as the book foretells", tally.calls);
    steps::formats(&mut tally);
    ranks::bounds(&mut tally);
    let (done, refused) = ranks::foretold(calls / 20, &mut rng, &mut tally);
    println!("ranks: {done} puts stand at the place foretold, {refused} are refused, and all ranks are as foretold");
    pit::cases(&mut tally);
    let closed = pit::turns(calls / 200, &mut rng, &mut tally);
    println!("turns of desk and pit: {closed} puts from the pit meet 17, and only the desk goes above 64");
    buildings::cases(&mut tally);
    let (kept, full) = buildings::homes(calls / 5000, &mut rng, &mut tally);
    println!("homes of all buildings: {kept} puts of a new tag meet 19, and {full} on older images meet 11");
    let met: u64 = (0..2).map(|step| buildings::turns(calls / 2500, step, &mut rng, &mut tally)).sum();
    println!("turns of 16 buildings: {met} puts meet 19, none of a building below 8, and none meets 11");
    afresh::cases(&mut tally);
    let laid = afresh::nearly_full(calls / 10, &mut rng, &mut tally);
    println!("nearly full areas: {laid} puts laid all zones out afresh, 12 only where they do not fit");
    controllers::outside(&mut tally);
    let (clean, refused) = controllers::sequences(calls / 500, &mut rng, &mut tally);
    println!("two controllers, two sequences: {clean} collections end with the same lists, {refused} meet a refusal");
    if calls >= 100_000 {
        let found = caught::every_cut(&mut tally);
        println!("every cut: {} times the old index is found, {} times the new one", found.old, found.new);
        let found = afresh::every_cut(&mut tally);
        println!("zones laid out afresh: {} times the old index, {} times the new one", found.old, found.new);
        let found = steps::every_cut(&mut tally);
        println!("the other step code: {} times the old index, {} times the new one", found.old, found.new);
        let found = ranks::every_cut(&mut tally);
        println!("ranks through a commit: {} times the old index, {} times the new one", found.old, found.new);
        steps::cut_formats(&mut tally);
        steps::damage(&mut tally);
        steps::bounds(&mut tally);
        (0..2).for_each(|step| limits(step, &mut tally));
        (0..2).for_each(|step| pit::limits(step, &mut tally));
    }
    let enough = tally.calls + calls;
    while tally.calls < enough {
        one_image(&mut rng, &mut tally);
    }
    let mut refusals: Vec<String> = Vec::new();
    for (n, k) in tally.refused.iter().enumerate().filter(|(_, k)| **k > 0) {
        refusals.push(format!("{n}: {k}"));
    }
    println!("{} calls, {} images, refusals {}", tally.calls, tally.images, refusals.join(", "));
    println!("same answers and bytes in all, {:.1} s", start.elapsed().as_secs_f64());
    assert_eq!(tally.refused[2], 0, "refusal 2 is no longer given");
    if calls >= 1_000_000 {
        assert!((1..=15).chain([17, 19]).all(|n| n == 2 || tally.refused[n] > 0), "a refusal was never met");
    }
}

#[derive(Default)]
pub struct Tally {
    calls: u64,
    images: u64,
    refused: [u64; 20],
}

/// A list of 989 records and one more, 256 tags of all buildings and one more.
fn limits(step: u32, tally: &mut Tally) {
    let mut p = Pair::begun(1024, step, tally);
    for i in 0..990u32 {
        let s = (i * 7919 % 100_003).to_be_bytes();
        let refused = refusal(tally, |t| p.put(7, [1, s[0], s[1], s[2], s[3], 0, 9, 0], t));
        assert_eq!(refused, (i == 989).then_some(10), "record {i}");
    }
    for i in 1..=256 {
        let refused = refusal(tally, |t| p.put(tag(i as usize % 16, 7 + i), [1, 0, 0, 0, 1, 0, 9, 0], t));
        assert_eq!(refused, (i == 256).then_some(19), "tag {i} beside the first");
    }
    assert_eq!(refusal(tally, |t| p.put(7, [1, 0, 0, 0, 0, 0, 9, 5], t)), Some(8));
    p.commit(cix::ALL, Told::Stood, tally);
    p.count(Of::Image, 7, tally);
}

// ---- random calls

/// One image with its workspace, edited, read, committed, cut, recovered and spoiled.
fn one_image(rng: &mut Random, tally: &mut Tally) {
    let pages = match rng.below(100) {
        0..=59 => 1 + rng.below(4),
        60..=84 => 5 + rng.below(12),
        85..=96 => 17 + rng.below(48),
        97 => 1024,
        _ => 65 + rng.below(200),
    };
    let entries = if rng.one_in(4) { 1 + rng.below(26 + pages) } else { 26 + pages };
    let mut p = Pair::blank(rng, entries, pages);
    tally.images += 1;
    p.format(entries, pages, rng.any_step(), rng.allowance(p.image.len() as u32 + 2), tally);
    p.format(rng.below(2 * (26 + pages)), pages + rng.below(2), rng.any_step(), cix::ALL, tally);
    p.recover(rng.allowance(100), rng.told(), tally);
    p.format(entries, pages, rng.below(2), cix::ALL, tally);
    p.open_book();
    let long = pages > 200 && rng.one_in(2);
    let pit = (9..65).contains(&pages) && rng.one_in(2);
    // One list of hundreds of records, one that the pit keeps at about 64, more tags than there may be, of three
    // buildings or of all, or any. So many of 16 puts are the desk's.
    let (tags, seconds, desk) = if long {
        (1, 3000, 15)
    } else if pit {
        (1, [20, 200][rng.below(2) as usize], 2)
    } else if pages >= 85 && rng.one_in(2) {
        ([300, 1600][rng.below(2) as usize], 3, 8)
    } else {
        ([1, 2, 3, 6, 20, 300][rng.below(6) as usize], [3, 20, 200, 2000][rng.below(4) as usize], 8)
    };
    let fill = long || !pit && rng.one_in(2);
    let steps = if pages >= 65 { 3000 } else { 50 + rng.below(if pit { 1000 } else { 400 }) };
    p.begin(tally);
    for _ in 0..steps {
        let tag = rng.tag(tags);
        let by = if rng.below(16) < desk { Terminal::Desk } else { Terminal::Pit };
        match rng.below(100) {
            0..=39 => p.put_by(by, tag, rng.record(seconds), tally),
            40..=54 if !fill => p.delete(tag, rng.listed(&p, tag, seconds), tally),
            55..=59 => p.set_minutes(tag, rng.listed(&p, tag, seconds), tally),
            60 if !long && !pit => p.drop_tag(tag, tally),
            61..=66 => p.commit(rng.allowance(900), rng.told(), tally),
            67..=69 => p.commit(cix::ALL, Told::Stood, tally),
            70..=73 => p.recover(rng.allowance(500), rng.told(), tally),
            74..=75 => p.begin(tally),
            76..=87 => read(&mut p, rng, tags, seconds, tally),
            88 => spoiled(&p, rng, tags, seconds, tally),
            89 => shortened(&p, rng, tags, tally),
            90 if pages <= 16 && rng.one_in(2) => p.change_step(tally),
            _ => p.put_by(by, tag, rng.record(seconds), tally),
        }
    }
}

fn read(p: &mut Pair, rng: &mut Random, tags: u32, seconds: u32, tally: &mut Tally) {
    let of = if rng.one_in(2) { Of::Image } else { Of::Space };
    let tag = rng.tag(tags);
    match rng.below(4) {
        0 => p.count(of, tag, tally),
        1 => p.show(of, tag, tally),
        2 => _ = p.rank(of, tag, rng.listed(p, tag, seconds), tally),
        _ => p.merge(of, rng, tags, tally),
    }
}

fn edit(p: &mut Pair, rng: &mut Random, tags: u32, seconds: u32, tally: &mut Tally) {
    let tag = rng.tag(tags);
    match rng.below(4) {
        0 => p.put_by(rng.terminal(), tag, rng.record(seconds), tally),
        1 => p.delete(tag, rng.listed(p, tag, seconds), tally),
        2 => p.set_minutes(tag, rng.listed(p, tag, seconds), tally),
        _ => p.drop_tag(tag, tally),
    }
}

fn any(p: &mut Pair, rng: &mut Random, tags: u32, seconds: u32, tally: &mut Tally) {
    match rng.below(10) {
        0..=3 => edit(p, rng, tags, seconds, tally),
        4 => p.commit(rng.allowance(900), rng.told(), tally),
        5 | 6 => p.recover(rng.allowance(500), rng.told(), tally),
        7 => p.begin(tally),
        _ => read(p, rng, tags, seconds, tally),
    }
}

/// A few calls on copies in which some bytes are anything.
fn spoiled(p: &Pair, rng: &mut Random, tags: u32, seconds: u32, tally: &mut Tally) {
    for _ in 0..4 {
        let mut q = p.clone();
        q.commit(rng.allowance(900), rng.told(), tally);
        q.book = None;
        for _ in 0..1 + rng.below(2) {
            let home = q.image.len() - q.space.len();
            match rng.below(6) {
                0 => rng.spoil_step(&mut q.image[home..]),
                1 => rng.spoil_step(&mut q.space),
                2 | 3 => rng.spoil(&mut q.image),
                _ => rng.spoil(&mut q.space),
            }
        }
        for _ in 0..3 {
            any(&mut q, rng, tags, seconds, tally);
        }
    }
}

/// A few calls on parts of the bytes, and on none.
fn shortened(p: &Pair, rng: &mut Random, tags: u32, tally: &mut Tally) {
    for _ in 0..4 {
        let mut q = p.clone();
        q.book = None;
        let image = rng.below(p.image.len() as u32 + 1) as usize;
        let space = 64 * rng.below(p.space.len() as u32 / 64 + 1) as usize;
        if rng.one_in(2) {
            q.image.truncate(image);
            q.image.shrink_to_fit();
        }
        if rng.one_in(2) {
            q.space.truncate(space);
            q.space.shrink_to_fit();
        } else if rng.one_in(3) {
            q.space.resize(p.space.len() + 64 * rng.below(3) as usize, 0);
        }
        for _ in 0..2 {
            any(&mut q, rng, tags, 20, tally);
        }
    }
}
