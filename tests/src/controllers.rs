//! Two controllers of a shaft get the same edits in two sequences. Where neither meets a refusal, both end with the
//! same lists, whatever their sizes, steps and layouts, in workspaces and through commits.
use crate::afresh::{needed, refusal};
use crate::book::changed;
use crate::model::{primary, records, Of, Rec};
use crate::pair::{dictionary, Pair, Told};
use crate::random::Random;
use crate::steps::nth;
use crate::Tally;
use std::collections::{BTreeMap, BTreeSet};

/// A tag and a record of its list.
type Call = (u32, Rec);

fn same(x: Call, y: Call) -> bool {
    x.0 == y.0 && primary(&x.1) == primary(&y.1)
}

#[derive(Clone, Copy)]
enum Edit {
    Put(Call),
    Delete(Call),
    DropTag(u32),
}
use Edit::{Delete, DropTag, Put};

impl Edit {
    /// Whether it takes this call off its tag's list.
    fn takes(self, x: Call) -> bool {
        match self {
            Put(_) => false,
            Delete(y) => same(x, y),
            DropTag(tag) => tag == x.0,
        }
    }

    /// Whether the claim speaks of collections with both: no call is put twice, or put and deleted, and none is put to
    /// a dropped tag.
    fn covered(self, other: Edit) -> bool {
        match (self, other) {
            (Put(x), Put(y)) => !same(x, y),
            (Put(x), e) | (e, Put(x)) => !e.takes(x),
            _ => true,
        }
    }

    fn make(self, p: &mut Pair, tally: &mut Tally) {
        match self {
            Put((tag, r)) => p.put(tag, r, tally),
            Delete((tag, r)) => p.delete(tag, r, tally),
            DropTag(tag) => p.drop_tag(tag, tally),
        }
    }
}

/// Makes the edits up to the first that is refused, and answers whether none is.
fn made(p: &mut Pair, edits: &[Edit], tally: &mut Tally) -> bool {
    edits.iter().all(|e| refusal(tally, |t| e.make(p, t)).is_none())
}

/// All lists. Those of one tag stand in their order, as no two calls are the same.
type Lists = BTreeSet<Call>;

/// The lists after edits of which none is refused, in whatever sequence: a call is listed if it is put, or was listed
/// and no edit takes it.
fn foretold(before: &Lists, edits: &[Edit]) -> Lists {
    let mut after = before.clone();
    after.retain(|&x| !edits.iter().any(|e| e.takes(x)));
    after.extend(edits.iter().filter_map(|e| if let Put(x) = e { Some(x) } else { None }));
    after
}

fn list(p: &Pair, of: Of, tag: u32) -> Vec<Rec> {
    let (count, shown) = match of {
        Of::Image => (cix::count_image(&p.image, tag), cix::show_image(&p.image, tag)),
        Of::Space => (cix::count_space(&p.space, tag), cix::show_space(&p.space, tag)),
    };
    let list = records(shown);
    assert_eq!(count, Ok(list.len() as u32), "the count of tag {tag}");
    list
}

// ---- outside the claim

/// A put to a tag and its drop, or two sets of one call's minutes: none is refused, and the last one counts.
pub fn outside(tally: &mut Tally) {
    let mut p = Pair::begun(2, 0, tally);
    p.put(7, nth(1), tally);
    let (put, drop) = (Put((7, nth(2))), DropTag(7));
    assert!(!put.covered(drop) && !drop.covered(put));
    for (sequence, end) in [([put, drop], vec![]), ([drop, put], vec![nth(2)])] {
        let mut p = p.clone();
        assert!(made(&mut p, &sequence, tally), "a put or a drop is refused");
        assert_eq!(list(&p, Of::Space, 7), end);
    }
    let [three, five] = [3, 5].map(|minutes| [1, 0, 0, 0, 1, 0, 9, minutes]);
    for sequence in [[three, five], [five, three]] {
        let mut p = p.clone();
        for r in sequence {
            assert_eq!(refusal(tally, |t| p.set_minutes(7, r, t)), None);
        }
        assert_eq!(list(&p, Of::Space, 7), sequence[1..]);
    }
}

// ---- random collections

/// The number of tags, with 0 and the highest among them.
const TAGS: u32 = 6;

/// Makes random collections in two random sequences. Answers how many met no refusal, and how many met one.
pub fn sequences(rounds: u64, rng: &mut Random, tally: &mut Tally) -> (u64, u64) {
    let (mut clean, mut moved) = (0, 0);
    for _ in 0..rounds {
        let (tags, seconds) = (1 + rng.below(TAGS), [1, 4, 20][rng.below(3) as usize]);
        let before = any_lists(tags, seconds, rng);
        let edits = collection(&before, tags, seconds, rng);
        let pages = least_pages(&before) + rng.below(4);
        let mut both = [pages, pages + 1 + rng.below(20)].map(|pages| controller(pages, &before, rng, tally));
        agree(&both, Of::Space, &before, rng, tally);
        moved += (dictionary(&both[0].space) != dictionary(&both[1].space)) as u64;
        let of = if rng.one_in(4) { Of::Image } else { Of::Space };
        if both.each_mut().map(|p| applied(p, of, edits.clone(), rng, tally)) == [true, true] {
            agree(&both, of, &foretold(&before, &edits), rng, tally);
            clean += 1;
        }
    }
    let refused = rounds - clean;
    assert!(rounds < 100 || moved > rounds / 3, "only {moved} times equal lists lie in other cells");
    assert!(rounds < 100 || clean > rounds / 3 && refused > rounds / 10, "{refused} of {rounds} meet a refusal");
    (clean, refused)
}

/// A call that often has another's level and second, and another phone.
fn call(tags: u32, seconds: u32, rng: &mut Random) -> Call {
    let mut r = rng.record(seconds);
    r[6] = rng.below(12) as u8;
    (rng.tag(tags), r)
}

fn any_lists(tags: u32, seconds: u32, rng: &mut Random) -> Lists {
    let mut lists = Lists::new();
    let most = [10, 40, 120][rng.below(3) as usize];
    for _ in 0..rng.below(most) {
        let x = call(tags, seconds, rng);
        if !lists.iter().any(|&y| same(x, y)) {
            lists.insert(x);
        }
    }
    lists
}

/// Edits that the claim covers. In this sequence they seldom meet a refusal.
fn collection(before: &Lists, tags: u32, seconds: u32, rng: &mut Random) -> Vec<Edit> {
    let busy = 1 + rng.below(tags); // tags that are put to, so that others can be dropped
    let mut edits: Vec<Edit> = Vec::new();
    for _ in 0..1 + rng.below(30) {
        let now: Vec<Call> = foretold(before, &edits).into_iter().collect();
        let x = call(busy, seconds, rng);
        let listed = if now.is_empty() || rng.one_in(60) { x } else { now[rng.below(now.len() as u32) as usize] };
        let e = match rng.below(16) {
            0 | 1 => DropTag(listed.0),
            2..=6 => Delete(listed),
            _ if now.iter().any(|&y| same(x, y)) && !rng.one_in(60) => continue,
            _ => Put(x),
        };
        if edits.iter().all(|&other| e.covered(other)) {
            edits.push(e);
        }
    }
    edits
}

/// The pages in which the lists fit with either step code.
fn least_pages(lists: &Lists) -> u32 {
    let mut lengths = BTreeMap::new();
    lists.iter().for_each(|x| *lengths.entry(x.0).or_insert(0) += 1);
    let cells = needed(0, &lengths).max(needed(1, &lengths)).max(1);
    cells.div_ceil(8) as u32
}

/// A controller that has come to these lists in its own way: after some edits, calls that are not among them are
/// deleted, and those that are missing are put.
fn controller(pages: u32, lists: &Lists, rng: &mut Random, tally: &mut Tally) -> Pair {
    let mut p = Pair::begun(pages, rng.below(2), tally);
    for _ in 0..rng.below(20) {
        match rng.below(8) {
            0 => p.drop_tag(rng.tag(TAGS), tally),
            _ => p.put(rng.tag(TAGS), rng.record(10), tally),
        }
    }
    let tags = dictionary(&p.space).into_iter().map(|e| e.0);
    let has: Lists = tags.flat_map(|tag| list(&p, Of::Space, tag).into_iter().map(move |r| (tag, r))).collect();
    let mut deletes: Vec<Edit> = has.difference(lists).copied().map(Delete).collect();
    let mut puts: Vec<Edit> = lists.difference(&has).copied().map(Put).collect();
    rng.shuffle(&mut deletes);
    rng.shuffle(&mut puts);
    assert!(made(&mut p, &deletes, tally) && made(&mut p, &puts, tally), "the lists do not fit");
    p.commit(cix::ALL, Told::Stood, tally);
    p.open_book();
    p
}

/// Makes the edits in a random sequence, in the workspace alone or through commits of some at a time, and answers
/// whether none is refused.
fn applied(p: &mut Pair, of: Of, mut edits: Vec<Edit>, rng: &mut Random, tally: &mut Tally) -> bool {
    rng.shuffle(&mut edits);
    if rng.one_in(2) {
        edits.sort_by_key(|e| matches!(e, DropTag(_))); // behind a drop, a delete of its tag's calls is refused
    }
    match of {
        Of::Space => made(p, &edits, tally),
        Of::Image => edits.chunks(1 + rng.below(4) as usize).all(|some| committed(p, some, rng, tally)),
    }
}

/// Begins, makes the edits and commits them. Where that is cut and the old index is found, they are made again.
fn committed(p: &mut Pair, edits: &[Edit], rng: &mut Random, tally: &mut Tally) -> bool {
    loop {
        p.begin(tally);
        if !made(p, edits, tally) {
            return false;
        }
        p.commit(rng.allowance(130 * changed(p.home(), &p.space) as u32 + 5), rng.told(), tally);
        while p.image[10] != 0 {
            p.recover(rng.allowance(2000), rng.told(), tally);
        }
        if p.home() == p.space {
            return true;
        }
    }
}

/// Both must have these lists and no others, and give the same ranks and merges. Nobody is first in line on one and
/// second on the other.
fn agree(both: &[Pair; 2], of: Of, lists: &Lists, rng: &mut Random, tally: &mut Tally) {
    let named = both.iter().flat_map(|p| dictionary(&p.space)).map(|e| e.0);
    let tags: BTreeSet<u32> = named.chain((0..TAGS).map(|t| 3 * t)).chain([u32::MAX]).collect();
    for tag in tags {
        let right: Vec<Rec> = lists.iter().filter(|x| x.0 == tag).map(|x| x.1).collect();
        let [one, other] = both.each_ref().map(|p| list(p, of, tag));
        assert_eq!(one, other, "the list of tag {tag} on the two controllers");
        assert_eq!(one, right, "the list of tag {tag}, and the one foretold");
        if let ([first, ..], [_, second, ..]) = (&one[..], &other[..]) {
            assert!(primary(first) < primary(second), "first and second in line of tag {tag}");
        }
        let r = rng.record(20);
        let rank = right.iter().filter(|x| primary(x) < primary(&r)).count() as u32;
        assert_eq!(both.each_ref().map(|p| p.rank(of, tag, r, tally)), [Ok(rank); 2], "a rank in tag {tag}");
    }
    let merge = [cix::Merge::Both, cix::Merge::Either, cix::Merge::Without][rng.below(3) as usize];
    let (first, second) = (rng.tag(TAGS), rng.tag(TAGS));
    let [one, other] = both.each_ref().map(|p| {
        let mut out = vec![0; 2000];
        let count = match of {
            Of::Image => cix::merge_image(&p.image, merge, first, second, &mut out),
            Of::Space => cix::merge_space(&p.space, merge, first, second, &mut out),
        };
        (count.unwrap(), out)
    });
    assert_eq!(one, other, "{merge:?} of tags {first} and {second} on the two controllers");
}
