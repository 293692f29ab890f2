//! How many blocks move as lists grow, with either step: the same puts, counted from outside. A block has moved
//! if its cell in the dictionary is another one after the put.
use crate::hand::{self, Way};
use crate::{tag, way, Random};
use cix::{Record, Step};
use std::collections::BTreeMap;

const PAGES: u32 = 1024;
const TAGS: u32 = 200;

/// All puts in one random order: 989 records to each of the first tags, and 900 / t to any other tag t.
fn puts(first: u32) -> Vec<(u32, Record)> {
    let mut rng = Random(7);
    let mut puts = Vec::new();
    for t in 1..=TAGS {
        let records = if t <= first { 989 } else { 900 / t };
        puts.extend((0..records).map(|_| (tag(t), rng.call())));
    }
    for i in (1..puts.len()).rev() {
        puts.swap(i, rng.below(i as u32 + 1) as usize);
    }
    puts
}

fn two(b: &[u8]) -> usize {
    u16::from_be_bytes([b[0], b[1]]) as usize
}

/// A workspace's tags and cells.
fn dictionary(space: &[u8]) -> BTreeMap<u32, usize> {
    let entry = |e: &[u8]| (u32::from_be_bytes(e[..4].try_into().unwrap()), two(&e[4..]));
    space[128..].chunks(6).take(two(space)).map(entry).collect()
}

/// A workspace's block counts by class.
fn blocks(space: &[u8]) -> impl Iterator<Item = usize> + '_ {
    space[2..122].chunks(4).map(|zone| two(&zone[2..]))
}

#[derive(Default)]
struct Moves {
    /// Puts that changed their list's class, and how often their own block moved.
    changes: usize,
    own: usize,
    /// Other blocks that they moved, and blocks that puts to new tags moved.
    others: usize,
    by_new: usize,
    /// Puts that laid all zones out afresh.
    afresh: usize,
    /// The cells of all blocks at the end.
    cells: usize,
}

fn moves(step: Step, size: &[usize], puts: &[(u32, Record)]) -> Moves {
    let mut image = vec![0; cix::image_bytes(26 + PAGES, PAGES)];
    let mut space = vec![0; cix::space_bytes(PAGES)];
    cix::format(&mut image, 26 + PAGES, PAGES, step, cix::ALL).unwrap();
    cix::begin(&image, &mut space).unwrap();
    let mut m = Moves::default();
    for &(tag, call) in puts {
        let before = space.clone();
        m.afresh += (way(&space, (tag, call)) == Some(Way::Afresh)) as usize;
        cix::put(&mut space, tag, call).unwrap();
        if blocks(&before).eq(blocks(&space)) {
            continue;
        }
        let (old, new) = (dictionary(&before), dictionary(&space));
        let others = old.iter().filter(|(t, cell)| **t != tag && new[t] != **cell).count();
        if let Some(cell) = old.get(&tag) {
            m.changes += 1;
            m.own += (new[&tag] != *cell) as usize;
            m.others += others;
        } else {
            m.by_new += others;
        }
    }
    m.cells = blocks(&space).zip(size).map(|(n, size)| n * size).sum();
    m
}

pub fn table() {
    println!("\nBlocks moved by the same puts with either step, {TAGS} growing lists, R = {PAGES} ({} cells)\n", 8 * PAGES);
    println!("| lists of 989 | puts | step | that change class | own block moved | others moved | for each | moved by new tags | laid afresh | cells of all blocks |");
    println!("|---|---|---|---|---|---|---|---|---|---|");
    for first in [2, 3] {
        let puts = puts(first);
        for (step, name, size) in
            [(Step::Fine, "25/21", &hand::FINE.size), (Step::Coarse, "31/20", &hand::COARSE.size)]
        {
            let m = moves(step, size, &puts);
            println!(
                "| {first} | {} | {name} | {} | {} | {} | {:.2} | {} | {} | {} |",
                puts.len(),
                m.changes,
                m.own,
                m.others,
                m.others as f64 / m.changes as f64,
                m.by_new,
                m.afresh,
                m.cells
            );
        }
    }
}
