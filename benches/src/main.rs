//! Times the library against memcmp, hand-written Rust and SQLite, and prints tables of ratios:
//! `figures [REPEATS]`. Each ratio is a median over repeats in which the two take turns. Then it counts the
//! blocks that puts move with either step.
mod hand;
mod moves;
#[cfg(sqlite)]
mod sqlite;

use cix::{Record, Step, Stored};
use hand::Way;
use std::hint::black_box;
use std::time::Instant;

extern "C" {
    fn memcmp(a: *const u8, b: *const u8, n: usize) -> i32;
}

fn main() {
    let repeats = std::env::args().nth(1).map_or(101, |a| a.parse().expect("a number"));
    soundness(repeats);
    against_hand(repeats);
    #[cfg(sqlite)]
    against_sqlite(repeats);
    by_size(repeats);
    ranks(repeats);
    new_tag(repeats);
    laid_afresh(repeats);
    placing(repeats);
    moves::table();
}

// ---- timing

fn median(mut v: Vec<f64>) -> f64 {
    v.sort_by(f64::total_cmp);
    v[v.len() / 2]
}

/// How often f goes into about a fifth of a millisecond.
fn often(f: &mut dyn FnMut()) -> u32 {
    let mut n = 1;
    loop {
        let start = Instant::now();
        (0..n).for_each(|_| f());
        if start.elapsed().as_micros() > 200 || n > 1 << 20 {
            return n;
        }
        n *= 2;
    }
}

/// The times of several functions that take turns, in nanoseconds.
struct Race(Vec<Vec<f64>>);

impl Race {
    fn run(repeats: usize, mut fs: Vec<&mut dyn FnMut()>) -> Race {
        let counts: Vec<u32> = fs.iter_mut().map(|f| often(*f)).collect();
        let mut turn = || {
            let time = |(f, n): (&mut &mut dyn FnMut(), &u32)| {
                let start = Instant::now();
                (0..*n).for_each(|_| f());
                start.elapsed().as_nanos() as f64 / *n as f64
            };
            fs.iter_mut().zip(&counts).map(time).collect()
        };
        Race((0..repeats).map(|_| turn()).collect())
    }

    /// The median of what f makes of each turn's times.
    fn of(&self, f: impl Fn(&[f64]) -> f64) -> f64 {
        median(self.0.iter().map(|t| f(t)).collect())
    }

    fn time(&self, i: usize) -> f64 {
        self.of(|t| t[i])
    }

    /// The i-th time as a multiple of the j-th.
    fn ratio(&self, i: usize, j: usize) -> f64 {
        self.of(|t| t[i] / t[j])
    }

    /// By how much the i-th time is above the j-th.
    fn above(&self, i: usize, j: usize) -> f64 {
        self.of(|t| t[i] - t[j])
    }
}

// ---- images

#[derive(Clone, Copy)]
enum Fill {
    Empty,
    Half,
    Full,
}

struct Random(u64);

impl Random {
    fn below(&mut self, n: u32) -> u32 {
        self.0 = self.0.wrapping_mul(6364136223846793005).wrapping_add(1442695040888963407);
        ((self.0 >> 33) % n as u64) as u32
    }

    fn call(&mut self) -> Record {
        Record {
            level: self.below(4) as u8,
            second: self.below(1 << 30),
            phone: self.below(1 << 16) as u16,
            minutes: self.below(60) as u8,
        }
    }
}

struct Bench {
    image: Vec<u8>,
    space: Vec<u8>,
    calls: Vec<(u32, Record)>,
    tags: u32,
    rng: Random,
}

/// The i-th tag: each building has 16.
fn tag(i: u32) -> u32 {
    i / 16 << 28 | 7 * i
}

/// The cells up to the last that is not zero.
fn used(space: &[u8]) -> usize {
    (space.len() - space.iter().rev().take_while(|x| **x == 0).count()).saturating_sub(1664).div_ceil(8)
}

/// An image whose area is filled by puts to tags taken at random: not at all, until half the cells are
/// used, or until a hundred puts in a row find no room.
fn filled(pages: u32, fill: Fill) -> Bench {
    filled_with((pages / 4).clamp(2, 200), pages, fill)
}

fn filled_with(tags: u32, pages: u32, fill: Fill) -> Bench {
    let entries = 26 + pages;
    let mut b = Bench {
        image: vec![0; cix::image_bytes(entries, pages)],
        space: vec![0; cix::space_bytes(pages)],
        calls: Vec::new(),
        tags,
        rng: Random(7),
    };
    cix::format(&mut b.image, entries, pages, Step::Fine, cix::ALL).unwrap();
    cix::begin(&b.image, &mut b.space).unwrap();
    let cells = match fill {
        Fill::Empty => 0,
        Fill::Half => 4 * pages as usize,
        Fill::Full => usize::MAX,
    };
    let mut refused = 0;
    while used(&b.space) < cells && refused < 100 {
        let (tag, call) = (tag(b.rng.below(tags)), b.rng.call());
        if cix::put(&mut b.space, tag, call).is_ok() {
            b.calls.push((tag, call));
            refused = 0;
        } else {
            refused += 1;
        }
    }
    cix::commit(&mut b.image, &b.space, cix::ALL).unwrap();
    b
}

fn bytes(r: Record) -> [u8; 8] {
    let (s, p) = (r.second.to_be_bytes(), r.phone.to_be_bytes());
    [r.level, s[0], s[1], s[2], s[3], p[0], p[1], r.minutes]
}

const SIZES: [u32; 3] = [2, 64, 1024];

// ---- the soundness test

fn soundness(repeats: usize) {
    println!("\nSoundness test (count of an unknown tag), as a multiple of memcmp over the same bytes\n");
    println!("| R | fill | library | hand-written Rust | memcmp, ns |");
    println!("|---|---|---|---|---|");
    for pages in SIZES {
        for (fill, name) in [(Fill::Empty, "empty"), (Fill::Half, "half"), (Fill::Full, "full")] {
            let b = filled(pages, fill);
            let other = b.space.clone();
            let (s, o) = (&b.space[..], &other[..]);
            let race = Race::run(
                repeats,
                vec![
                    &mut || {
                        black_box(unsafe { memcmp(black_box(s).as_ptr(), black_box(o).as_ptr(), s.len()) });
                    },
                    &mut || {
                        black_box(cix::count_space(black_box(s), u32::MAX)).unwrap();
                    },
                    &mut || assert!(black_box(hand::sound(black_box(s)))),
                ],
            );
            println!("| {pages} | {name} | {:.1} | {:.1} | {:.0} |", race.ratio(1, 0), race.ratio(2, 0), race.time(0));
        }
    }
}

// ---- hand-written Rust

/// Puts in a row, each begun and committed, by the library and by hand. Leaves the same bytes.
fn puts(b: &mut Bench) -> Vec<(u32, Record)> {
    let mut image = b.image.clone();
    let mut row = Vec::new();
    for _ in 0..200 {
        let (tag, call) = (tag(b.rng.below(b.tags)), b.rng.call());
        cix::begin(&image, &mut b.space).unwrap();
        if cix::put(&mut b.space, tag, call).is_ok() {
            cix::commit(&mut image, &b.space, cix::ALL).unwrap();
            row.push((tag, call));
        }
    }
    row
}

fn library_puts(image: &mut [u8], space: &mut [u8], row: &[(u32, Record)]) {
    for &(tag, call) in row {
        cix::begin(image, space).unwrap();
        cix::put(space, tag, call).unwrap();
        cix::commit(image, space, cix::ALL).unwrap();
    }
}

fn hand_puts(image: &mut [u8], space: &mut [u8], row: &[(u32, Record)]) {
    for &(tag, call) in row {
        hand::begin(image, space).unwrap();
        hand::put(space, tag, bytes(call)).unwrap();
        hand::commit(image, space, u32::MAX).unwrap();
    }
}

fn against_hand(repeats: usize) {
    println!("\nCalls on half-full images, as a multiple of hand-written Rust with the same checks\n");
    println!("| R | begin + put + commit | count | rank | show | either | recover |");
    println!("|---|---|---|---|---|---|---|");
    for pages in SIZES {
        let mut b = filled(pages, Fill::Half);
        let row = puts(&mut b);
        let (mut one, mut two) = (b.image.clone(), b.image.clone());
        library_puts(&mut one, &mut b.space, &row);
        hand_puts(&mut two, &mut b.space, &row);
        assert!(one == two, "the hand-written puts leave other bytes");
        let (image, start) = (&b.image[..], &b.image);
        let (mut space1, mut space2) = (b.space.clone(), b.space.clone());
        let put = Race::run(
            repeats,
            vec![
                &mut || {
                    one.copy_from_slice(start);
                    library_puts(&mut one, &mut space1, &row);
                },
                &mut || {
                    two.copy_from_slice(start);
                    hand_puts(&mut two, &mut space2, &row);
                },
            ],
        );
        let count = Race::run(
            repeats,
            vec![
                &mut || _ = black_box(cix::count_image(black_box(image), 7)),
                &mut || _ = black_box(hand::count_image(black_box(image), 7)),
            ],
        );
        let list: Vec<Record> = cix::records(cix::show_image(image, 7)).collect();
        let middle = list[list.len() / 2];
        assert_eq!(cix::rank_image(image, 7, middle).ok(), hand::rank_image(image, 7, bytes(middle)).ok());
        let rank = Race::run(
            repeats,
            vec![
                &mut || _ = black_box(cix::rank_image(black_box(image), 7, middle)),
                &mut || _ = black_box(hand::rank_image(black_box(image), 7, bytes(middle))),
            ],
        );
        let show = Race::run(
            repeats,
            vec![
                &mut || _ = black_box(cix::show_image(black_box(image), 7).len()),
                &mut || _ = black_box(hand::show_image(black_box(image), 7).len()),
            ],
        );
        let (mut out1, mut out2) = (vec![0; 16000], vec![0; 16000]);
        let either = Race::run(
            repeats,
            vec![
                &mut || _ = black_box(cix::merge_image(black_box(image), cix::Merge::Either, 0, 7, &mut out1)),
                &mut || _ = black_box(hand::either_image(black_box(image), 0, 7, &mut out2)),
            ],
        );
        assert!(out1 == out2);
        let recover = recoveries(&b, repeats);
        let r = |race: Race| format!("{:.2}", race.ratio(0, 1));
        println!(
            "| {pages} | {} | {} | {} | {} | {} | {} |",
            r(put),
            r(count),
            r(rank),
            r(show),
            r(either),
            r(recover)
        );
    }
}

/// A commit's recovery: the mark set again and the log replayed.
fn recoveries(b: &Bench, repeats: usize) -> Race {
    let (mut image, mut space) = (b.image.clone(), b.space.clone());
    cix::begin(&image, &mut space).unwrap();
    cix::put(&mut space, 0, Record { level: 9, second: 1, phone: 1, minutes: 1 }).unwrap();
    let Stored::Done(all) = cix::commit(&mut image.clone(), &space, cix::ALL).unwrap() else { panic!() };
    cix::commit(&mut image, &space, all - 1).unwrap();
    let mut other = image.clone();
    Race::run(
        repeats,
        vec![
            &mut || {
                image[10] = 165;
                cix::recover(black_box(&mut image), cix::ALL).unwrap();
            },
            &mut || {
                other[10] = 165;
                hand::recover(black_box(&mut other), u32::MAX).unwrap();
            },
        ],
    )
}

// ---- SQLite

#[cfg(sqlite)]
fn against_sqlite(repeats: usize) {
    println!("\nThe same calls by SQLite, as a multiple of the library's time (more than 1: the library is faster)\n");
    println!("| R | put, in memory | put, journal on a memory file system | ordered read, in memory |");
    println!("|---|---|---|---|");
    for pages in SIZES {
        let mut b = filled(pages, Fill::Half);
        let row = puts(&mut b);
        let (mut image, mut space) = (b.image.clone(), b.space.clone());
        let file = "/dev/shm/cix-figures.db";
        let _ = std::fs::remove_file(file);
        let (memory, journal) = (sqlite::Table::open(":memory:"), sqlite::Table::open(file));
        for t in [&memory, &journal] {
            t.exec("BEGIN");
            b.calls.iter().for_each(|&(tag, call)| t.put(tag, call));
            t.exec("COMMIT");
        }
        let mut turns = Vec::new();
        for _ in 0..repeats {
            image.copy_from_slice(&b.image);
            let start = Instant::now();
            library_puts(&mut image, &mut space, &row);
            let mut times = vec![start.elapsed().as_nanos() as f64];
            for t in [&memory, &journal] {
                let start = Instant::now();
                row.iter().for_each(|&(tag, call)| t.put(tag, call));
                times.push(start.elapsed().as_nanos() as f64);
                t.exec("BEGIN");
                row.iter().for_each(|&(tag, call)| t.delete(tag, call));
                t.exec("COMMIT");
            }
            turns.push(times);
        }
        let puts = Race(turns);
        let sum = |image: &[u8]| -> u64 { cix::records(cix::show_image(image, 7)).map(|r| r.second as u64).sum() };
        assert_eq!(sum(&b.image), memory.seconds(7));
        let read = Race::run(
            repeats,
            vec![&mut || _ = black_box(sum(black_box(&b.image))), &mut || _ = black_box(memory.seconds(7))],
        );
        println!("| {pages} | {:.2} | {:.2} | {:.2} |", puts.ratio(1, 0), puts.ratio(2, 0), read.ratio(1, 0));
        let _ = std::fs::remove_file(file);
    }
}

// ---- cost against size

fn by_size(repeats: usize) {
    println!("\nbegin + put + commit on half-full images, as a multiple of R = 2\n");
    println!("| R | image, bytes | time | microseconds |");
    println!("|---|---|---|---|");
    let mut base = None;
    for pages in [2, 8, 32, 128, 512, 1024] {
        let mut b = filled(pages, Fill::Half);
        let row = puts(&mut b);
        let (mut image, mut space) = (b.image.clone(), b.space.clone());
        let race = Race::run(
            repeats,
            vec![&mut || {
                image.copy_from_slice(&b.image);
                library_puts(&mut image, &mut space, &row);
            }],
        );
        let each = race.time(0) / row.len() as f64;
        let base = *base.get_or_insert(each);
        println!("| {pages} | {} | {:.1} | {:.2} |", b.image.len(), each / base, each / 1000.0);
    }
}

// ---- a search in a list

fn ranks(repeats: usize) {
    println!("\nA rank in a list that is alone in a workspace of R = 128, in nanoseconds\n");
    println!("| records | count | rank | difference |");
    println!("|---|---|---|---|");
    for n in [1, 10, 100, 989] {
        let mut b = filled(128, Fill::Empty);
        for second in 0..n {
            cix::put(&mut b.space, 7, Record { level: 1, second, phone: 9, minutes: 0 }).unwrap();
        }
        let space = &b.space[..];
        let asked = Record { level: 1, second: n / 2, phone: 0, minutes: 0 };
        assert_eq!(cix::rank_space(space, 7, asked), Ok(n / 2));
        let race = Race::run(
            repeats,
            vec![
                &mut || _ = black_box(cix::count_space(black_box(space), 7)),
                &mut || _ = black_box(cix::rank_space(black_box(space), 7, asked)),
            ],
        );
        println!("| {n} | {:.0} | {:.0} | {:.0} |", race.time(0), race.time(1), race.above(1, 0));
    }
}

// ---- edits

type Edit<'a> = &'a dyn Fn(&mut [u8]);

/// The times of the soundness test and then of edits, each after a copy of the workspace, whose time is
/// first and left out of the others.
fn race_on(start: &[u8], edits: &[Edit], repeats: usize) -> Race {
    let copy: Edit = &|_| ();
    let sound: Edit = &|space| _ = black_box(cix::count_space(space, u32::MAX)).unwrap();
    let calls = [copy, sound].into_iter().chain(edits.iter().copied());
    let on_copy = calls.map(|call| {
        let mut space = start.to_vec();
        move || {
            space.copy_from_slice(start);
            call(black_box(&mut space));
        }
    });
    let mut fs: Vec<_> = on_copy.collect();
    let race = Race::run(repeats, fs.iter_mut().map(|f| f as &mut dyn FnMut()).collect());
    Race(race.0.iter().map(|t| t.iter().map(|x| x - t[0]).collect()).collect())
}

// ---- a new tag

fn new_tag(repeats: usize) {
    println!("\nPuts of a new tag beside 250 lists of one record, of all buildings, in microseconds\n");
    println!("| R | put | soundness test | difference | by hand |");
    println!("|---|---|---|---|---|");
    let call = Record { level: 1, second: 100, phone: 9, minutes: 0 };
    for pages in [256, 1024] {
        let mut space = vec![0; cix::space_bytes(pages)];
        (0..250).for_each(|i| assert_eq!(cix::put(&mut space, tag(i), call), Ok(1)));
        let new = 8 << 28;
        assert!(way(&space, (new, call)) == Some(Way::Placed), "the put is not done");
        let race = race_on(
            &space,
            &[
                &|space| assert_eq!(cix::put(space, new, call), Ok(1)),
                &|space| assert_eq!(hand::put(space, new, bytes(call)), Ok(1)),
            ],
            repeats,
        );
        let times = [race.time(2), race.time(1), race.above(2, 1), race.time(3)];
        let [put, sound, edit, hand] = times.map(|t| t / 1000.0);
        println!("| {pages} | {put:.2} | {sound:.2} | {edit:.2} | {hand:.2} |");
    }
}

// ---- zones laid out afresh

/// A full workspace, and puts on it: one that lays all zones out afresh, one that changes its list's class
/// and finds room, and one that keeps it.
struct Edge {
    space: Vec<u8>,
    afresh: (u32, Record),
    placed: (u32, Record),
    kept: (u32, Record),
}

/// How a put is done, by hand and by the library, which leave the same bytes.
fn way(space: &[u8], (tag, call): (u32, Record)) -> Option<Way> {
    let (mut one, mut two) = (space.to_vec(), space.to_vec());
    let by_hand = hand::put_by(&mut one, tag, bytes(call));
    let by_library = cix::put(&mut two, tag, call).map_err(|r| r.number());
    assert_eq!(by_hand.map(|(n, _)| n), by_library, "the hand-written put answers otherwise");
    assert!(one == two, "the hand-written put leaves other bytes");
    by_hand.ok().map(|(_, way)| way)
}

/// Puts and deletes on a full area until it is such a workspace, and then makes the put.
fn edge(b: &mut Bench) -> Edge {
    loop {
        if b.rng.below(3) == 0 {
            let i = b.rng.below(b.calls.len() as u32) as usize;
            let (tag, call) = b.calls.swap_remove(i);
            cix::delete(&mut b.space, tag, call).unwrap();
        }
        let put = (tag(b.rng.below(b.tags)), b.rng.call());
        let Some(done) = way(&b.space, put) else { continue };
        let space = b.space.clone();
        cix::put(&mut b.space, put.0, put.1).unwrap();
        b.calls.push(put);
        if done == Way::Afresh {
            let listed = (0..b.tags).map(tag).filter(|&t| cix::count_space(&space, t) != Ok(0));
            let puts: Vec<_> = listed.map(|t| (t, put.1)).collect();
            let first = |w| puts.iter().copied().find(|&put| way(&space, put) == Some(w));
            if let (Some(placed), Some(kept)) = (first(Way::Placed), first(Way::Kept)) {
                return Edge { space, afresh: put, placed, kept };
            }
        }
    }
}

/// The times of the three puts, and of the first of them by hand.
fn race_at(e: &Edge, repeats: usize) -> Race {
    let put = |(tag, call)| move |space: &mut [u8]| _ = cix::put(space, tag, call).unwrap();
    race_on(
        &e.space,
        &[
            &put(e.afresh),
            &put(e.placed),
            &put(e.kept),
            &|space| _ = hand::put(space, e.afresh.0, bytes(e.afresh.1)).unwrap(),
        ],
        repeats,
    )
}

fn laid_afresh(repeats: usize) {
    println!("\nPuts that lay all zones out afresh, and others, on nine full workspaces, in microseconds\n");
    println!("| R | afresh | changes class | keeps class | soundness test | afresh / that test | at most | afresh / by hand |");
    println!("|---|---|---|---|---|---|---|---|");
    for pages in [8, 64, 1024] {
        let mut b = filled_with((pages / 4).clamp(8, 200), pages, Fill::Full);
        let races: Vec<Race> = (0..9).map(|_| race_at(&edge(&mut b), repeats)).collect();
        let time = |i| median(races.iter().map(|r| r.time(i) / 1000.0).collect());
        let ratio = |i, j| median(races.iter().map(|r| r.ratio(i, j)).collect());
        let most = races.iter().map(|r| r.ratio(2, 1)).fold(0.0, f64::max);
        println!(
            "| {pages} | {:.2} | {:.2} | {:.2} | {:.2} | {:.1} | {most:.1} | {:.2} |",
            time(2),
            time(3),
            time(4),
            time(1),
            ratio(2, 1),
            ratio(2, 5)
        );
    }
}

// ---- placing

/// A workspace of full blocks without gaps, one of each class below `others` and one more of class c, its
/// zone's last, and the put that changes the class of that one's list.
fn packed(others: usize, c: usize) -> (Vec<u8>, (u32, Record)) {
    let mut classes: Vec<usize> = (0..others).collect();
    let tag = classes.partition_point(|&d| d <= c);
    classes.insert(tag, c);
    let call = |second, phone| Record { level: 1, second, phone, minutes: 0 };
    let records: Vec<u8> = (0..989).flat_map(|second| bytes(call(second, 0))).collect();
    (hand::packed(1024, &classes, &records), (tag as u32, call(hand::FINE.size[c] as u32 / 2, 1)))
}

fn placing(repeats: usize) {
    println!("\nPuts that change a list's class, beside lists of all classes and alone, R = 1,024, in microseconds\n");
    println!("| calls | lists beside | put | soundness test | difference |");
    println!("|---|---|---|---|---|");
    for c in [0, 28] {
        for others in [hand::FINE.size.len(), 0] {
            let (space, (tag, call)) = packed(others, c);
            assert!(way(&space, (tag, call)) == Some(Way::Placed), "the put places no block");
            let n = hand::FINE.size[c] as u32;
            let race = race_on(&space, &[&|space| assert_eq!(cix::put(space, tag, call), Ok(n))], repeats);
            let [put, sound, edit] = [race.time(2), race.time(1), race.above(2, 1)].map(|t| t / 1000.0);
            println!("| {} to {n} | {others} | {put:.2} | {sound:.2} | {edit:.2} |", n - 1);
        }
    }
}
