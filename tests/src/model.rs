//! The specification's call index in plain Rust: written to be read beside it, not to be fast. It
//! keeps a home as zones of blocks, and stores as a list that an allowance cuts.

/// A record's 8 bytes. The first 7 are its primary part, and their order is that of level, second,
/// phone.
pub type Rec = [u8; 8];

pub fn primary(r: &Rec) -> &[u8] {
    &r[..7]
}

/// The records in bytes.
pub fn records(b: &[u8]) -> Vec<Rec> {
    b.chunks(8).map(|r| r.try_into().unwrap()).collect()
}

/// The classes that a home's zone table has entries for.
const CLASSES: usize = 30;
const LONGEST: usize = 989;

/// Capacities by class: 4, then each the one before times a step, rounded up and ended at 989.
const fn rising<const N: usize>(times: usize, parts: usize) -> [usize; N] {
    let mut all = [4; N];
    let mut c = 1;
    while c < N {
        all[c] = (all[c - 1] * times).div_ceil(parts);
        if all[c] > LONGEST {
            all[c] = LONGEST;
        }
        c += 1;
    }
    all
}

const FINE: [usize; CLASSES] = rising(25, 21);
const COARSE: [usize; 14] = rising(31, 20);

/// A step code's capacities, if there is such a code.
fn capacities(step: u32) -> Option<&'static [usize]> {
    match step {
        0 => Some(&FINE),
        1 => Some(&COARSE),
        _ => None,
    }
}

fn two(b: &[u8], at: usize) -> usize {
    b[at] as usize * 256 + b[at + 1] as usize
}

fn four(b: &[u8], at: usize) -> u32 {
    u32::from_be_bytes(b[at..at + 4].try_into().unwrap())
}

fn zero(b: &[u8]) -> bool {
    b.iter().all(|&x| x == 0)
}

#[derive(Clone)]
pub struct Block {
    pub tag: u32,
    pub list: Vec<Rec>,
}

#[derive(Clone, Default)]
pub struct Zone {
    pub first: usize,
    pub blocks: Vec<Block>,
}

#[derive(Clone)]
pub struct Home {
    pages: usize,
    step: u8,
    /// The capacities of the step's classes, and as many zones.
    capacities: &'static [usize],
    zones: Vec<Zone>,
    /// Whether a change has laid all zones out afresh.
    pub afresh: bool,
}

/// The top four bits of a tag.
fn building(tag: u32) -> usize {
    (tag >> 28) as usize
}

/// The byte of home that is the step code.
pub const STEP: usize = 122;
const DICTIONARY: usize = 128;
const AREA: usize = 1664;

impl Home {
    fn cells(&self) -> usize {
        8 * self.pages
    }

    fn size(&self, class: usize) -> usize {
        self.capacities[class] + 1
    }

    fn class_of(&self, records: usize) -> Option<usize> {
        self.capacities.iter().position(|&n| n >= records)
    }

    /// The home in these bytes, if they are sound.
    pub fn read(b: &[u8]) -> Option<Home> {
        let pages = (b.len() / 64).checked_sub(26)?;
        if b.len() % 64 != 0 || !(1..=1024).contains(&pages) {
            return None;
        }
        let step = b[STEP];
        let capacities = capacities(step.into())?;
        let zones = vec![Zone::default(); capacities.len()];
        let mut home = Home { pages, step, capacities, zones, afresh: false };
        let tags = two(b, 0);
        if tags > 256 || !zero(&b[STEP + 1..DICTIONARY]) || !zero(&b[DICTIONARY + 6 * tags..AREA]) {
            return None;
        }
        if !zero(&b[2 + 4 * capacities.len()..STEP]) {
            return None; // classes that the step has not are empty
        }
        let mut starts = Vec::new();
        let mut end = 0;
        for c in 0..capacities.len() {
            let size = home.size(c);
            let (first, count) = (two(b, 2 + 4 * c), two(b, 4 + 4 * c));
            if count == 0 {
                if first != 0 {
                    return None;
                }
                continue;
            }
            let stop = first + count * size;
            if first < end || first - end >= size || stop > home.cells() {
                return None;
            }
            if !zero(&b[AREA + 8 * end..AREA + 8 * first]) {
                return None;
            }
            home.zones[c].first = first;
            for i in 0..count {
                let cell = first + i * size;
                let at = AREA + 8 * cell;
                let block = &b[at..at + 8 * size];
                let n = two(block, 4);
                if n == 0 || home.class_of(n) != Some(c) || !zero(&block[6..8]) || !zero(&block[8 + 8 * n..]) {
                    return None;
                }
                let list = records(&block[8..8 + 8 * n]);
                if list.windows(2).any(|w| primary(&w[0]) >= primary(&w[1])) {
                    return None;
                }
                let tag = four(block, 0);
                starts.push((cell, tag));
                home.zones[c].blocks.push(Block { tag, list });
            }
            end = stop;
        }
        if !zero(&b[AREA + 8 * end..]) || starts.len() != tags {
            return None;
        }
        for i in 0..tags {
            let at = DICTIONARY + 6 * i;
            let (tag, cell) = (four(b, at), two(b, at + 4));
            if i > 0 && four(b, at - 6) >= tag {
                return None;
            }
            if starts.binary_search(&(cell, tag)).is_err() {
                return None;
            }
        }
        Some(home)
    }

    /// The home's bytes.
    pub fn write(&self) -> Vec<u8> {
        let mut b = vec![0; 64 * (26 + self.pages)];
        b[STEP] = self.step;
        let mut entries = Vec::new();
        for (c, z) in self.zones.iter().enumerate() {
            b[2 + 4 * c..4 + 4 * c].copy_from_slice(&(z.first as u16).to_be_bytes());
            b[4 + 4 * c..6 + 4 * c].copy_from_slice(&(z.blocks.len() as u16).to_be_bytes());
            for (i, block) in z.blocks.iter().enumerate() {
                let cell = z.first + i * self.size(c);
                let at = AREA + 8 * cell;
                b[at..at + 4].copy_from_slice(&block.tag.to_be_bytes());
                b[at + 4..at + 6].copy_from_slice(&(block.list.len() as u16).to_be_bytes());
                for (j, r) in block.list.iter().enumerate() {
                    b[at + 8 + 8 * j..at + 16 + 8 * j].copy_from_slice(r);
                }
                entries.push((block.tag, cell as u16));
            }
        }
        entries.sort();
        b[0..2].copy_from_slice(&(entries.len() as u16).to_be_bytes());
        for (i, (tag, cell)) in entries.iter().enumerate() {
            let at = DICTIONARY + 6 * i;
            b[at..at + 4].copy_from_slice(&tag.to_be_bytes());
            b[at + 4..at + 6].copy_from_slice(&cell.to_be_bytes());
        }
        b
    }

    fn tags(&self) -> usize {
        self.zones.iter().map(|z| z.blocks.len()).sum()
    }

    /// Whether a tag's building may add one: surely while it has fewer than 8, otherwise only while the unused tags
    /// exceed what the buildings below 8 still lack.
    fn may_add(&self, tag: u32) -> bool {
        let mut owned = [0usize; 16];
        for block in self.zones.iter().flat_map(|z| &z.blocks) {
            owned[building(block.tag)] += 1;
        }
        let unused = 256 - self.tags();
        let lack: usize = owned.iter().map(|&n| 8usize.saturating_sub(n)).sum();
        owned[building(tag)] < 8 || unused > lack
    }

    /// The class and number of a tag's block.
    fn find(&self, tag: u32) -> Option<(usize, usize)> {
        for (c, z) in self.zones.iter().enumerate() {
            if let Some(i) = z.blocks.iter().position(|b| b.tag == tag) {
                return Some((c, i));
            }
        }
        None
    }

    pub fn list(&self, tag: u32) -> &[Rec] {
        match self.find(tag) {
            Some((c, i)) => &self.zones[c].blocks[i].list,
            None => &[],
        }
    }

    /// Where a tag's records begin in home.
    fn place_of(&self, tag: u32) -> Option<usize> {
        let (c, i) = self.find(tag)?;
        Some(AREA + 8 * (self.zones[c].first + i * self.size(c)) + 8)
    }

    /// The end of the nearest nonempty zone below class c, or cell 0.
    fn end_below(&self, c: usize) -> usize {
        match (0..c).rev().find(|&d| !self.zones[d].blocks.is_empty()) {
            Some(d) => self.zones[d].first + self.zones[d].blocks.len() * self.size(d),
            None => 0,
        }
    }

    /// Places a block of class c; false where there is no room, and the home is then to be thrown away.
    fn place(&mut self, c: usize, block: Block) -> bool {
        let at = self.end_below(c + 1);
        let next = (c + 1..self.zones.len()).find(|&d| !self.zones[d].blocks.is_empty());
        let limit = next.map_or(self.cells(), |d| self.zones[d].first);
        let lifted = match next {
            _ if at + self.size(c) <= limit => None,
            None => return false,
            Some(d) => {
                let size = self.size(d);
                let z = &mut self.zones[d];
                let first = z.blocks.remove(0);
                z.first = if z.blocks.is_empty() { 0 } else { z.first + size };
                Some((d, first))
            }
        };
        let z = &mut self.zones[c];
        if z.blocks.is_empty() {
            z.first = at;
        }
        z.blocks.push(block);
        match lifted {
            Some((d, b)) => self.place(d, b),
            None => true,
        }
    }

    /// Places a block of class c. Where that finds no room, it is as if it had not begun: the block is the
    /// last of its zone, and all zones are laid out afresh. False where all blocks together do not fit.
    fn settle(&mut self, c: usize, block: Block) -> bool {
        let before = self.clone();
        if self.place(c, block.clone()) {
            return true;
        }
        *self = before;
        self.zones[c].blocks.push(block);
        self.lay_afresh()
    }

    /// Lays all zones out from cell 0 without gaps; false where they do not fit.
    fn lay_afresh(&mut self) -> bool {
        let mut end = 0;
        for (z, capacity) in self.zones.iter_mut().zip(self.capacities) {
            z.first = if z.blocks.is_empty() { 0 } else { end };
            end += z.blocks.len() * (capacity + 1);
        }
        self.afresh = true;
        end <= self.cells()
    }

    /// Takes block i of zone c out and closes the gaps above.
    fn take_out(&mut self, c: usize, i: usize) {
        let z = &mut self.zones[c];
        z.blocks.swap_remove(i);
        if z.blocks.is_empty() {
            z.first = 0;
        }
        for d in c + 1..self.zones.len() {
            let size = self.size(d);
            while !self.zones[d].blocks.is_empty() && self.zones[d].first - self.end_below(d) >= size {
                let z = &mut self.zones[d];
                let last = z.blocks.pop().unwrap();
                z.blocks.insert(0, last);
                z.first -= size;
            }
        }
    }

    /// Makes `list` the list of a tag; false where all blocks together do not fit.
    pub fn change(&mut self, tag: u32, list: Vec<Rec>) -> bool {
        let old = self.find(tag);
        if list.is_empty() {
            let (c, i) = old.unwrap();
            self.take_out(c, i);
            return true;
        }
        let new = self.class_of(list.len()).unwrap();
        if let Some((c, i)) = old {
            if c == new {
                self.zones[c].blocks[i].list = list;
                return true;
            }
            self.take_out(c, i);
        }
        self.settle(new, Block { tag, list })
    }
}

// ---- edits: the list's count afterwards, or the refusal

pub type Counted = Result<u32, u8>;

fn space_home(space: &[u8]) -> Result<Home, u8> {
    let pages = (space.len() / 64).wrapping_sub(26);
    if space.len() % 64 != 0 || !(1..=1024).contains(&pages) {
        return Err(6);
    }
    Home::read(space).ok_or(7)
}

fn edit(space: &mut [u8], tag: u32, f: impl Fn(&Home, &mut Vec<Rec>) -> Result<(), u8>) -> Counted {
    let mut home = space_home(space)?;
    let mut list = home.list(tag).to_vec();
    f(&home, &mut list)?;
    let n = list.len() as u32;
    if !home.change(tag, list) {
        return Err(12);
    }
    space.copy_from_slice(&home.write());
    Ok(n)
}

/// A put from the desk.
pub fn put(space: &mut [u8], tag: u32, r: Rec) -> Counted {
    put_below(LONGEST, 10, space, tag, r)
}

/// A put from the pit, whose display scrolls no further than 64 records.
pub fn put_pit(space: &mut [u8], tag: u32, r: Rec) -> Counted {
    put_below(64, 17, space, tag, r)
}

/// Puts to a list of fewer records than the limit; with as many or more the list is refused as full.
fn put_below(limit: usize, full: u8, space: &mut [u8], tag: u32, r: Rec) -> Counted {
    edit(space, tag, |home, list| {
        match list.binary_search_by(|x| primary(x).cmp(primary(&r))) {
            Ok(_) => Err(8),
            Err(_) if list.len() >= limit => Err(full),
            Err(_) if list.is_empty() && !home.may_add(tag) => Err(19),
            Err(_) if list.is_empty() && home.tags() == 256 => Err(11),
            Err(i) => Ok(list.insert(i, r)),
        }
    })
}

pub fn delete(space: &mut [u8], tag: u32, r: Rec) -> Counted {
    edit(space, tag, |_, list| {
        let i = list.iter().position(|x| primary(x) == primary(&r)).ok_or(9)?;
        list.remove(i);
        Ok(())
    })
}

pub fn set_minutes(space: &mut [u8], tag: u32, r: Rec) -> Counted {
    edit(space, tag, |_, list| {
        let i = list.iter().position(|x| primary(x) == primary(&r)).ok_or(9)?;
        list[i] = r;
        Ok(())
    })
}

pub fn drop_tag(space: &mut [u8], tag: u32) -> Counted {
    edit(space, tag, |_, list| {
        if list.is_empty() {
            return Err(9);
        }
        list.clear();
        Ok(())
    })
}

// ---- the image

pub const MARKED: u8 = 165;

/// The log capacity and record pages of a right head.
fn head(image: &[u8]) -> Result<(usize, usize), u8> {
    if image.len() < 64 || &image[..4] != b"CIX1" || !zero(&image[11..64]) {
        return Err(1);
    }
    let (entries, pages) = (two(image, 4), two(image, 6));
    if !sizes(entries, pages) || image.len() != length(entries, pages) {
        return Err(1);
    }
    Ok((entries, pages))
}

fn sizes(entries: usize, pages: usize) -> bool {
    (1..=1024).contains(&pages) && (1..=26 + pages).contains(&entries)
}

fn length(entries: usize, pages: usize) -> usize {
    64 + 66 * entries + 64 * (26 + pages)
}

/// Where home begins in an image with a right head.
pub fn home_at(image: &[u8]) -> usize {
    64 + 66 * two(image, 4)
}

/// The home of an image with mark 0.
fn image_home(image: &[u8]) -> Result<Home, u8> {
    head(image)?;
    if image[10] != 0 {
        return Err(3);
    }
    Home::read(&image[home_at(image)..]).ok_or(5)
}

/// Bytes to read: an image or a workspace.
#[derive(Clone, Copy)]
pub enum Of {
    Image,
    Space,
}

fn home_of(of: Of, bytes: &[u8]) -> Result<(Home, usize), u8> {
    match of {
        Of::Image => Ok((image_home(bytes)?, home_at(bytes))),
        Of::Space => Ok((space_home(bytes)?, 0)),
    }
}

pub fn count(of: Of, bytes: &[u8], tag: u32) -> Counted {
    Ok(home_of(of, bytes)?.0.list(tag).len() as u32)
}

/// The number of the tag's records before r's primary part.
pub fn rank(of: Of, bytes: &[u8], tag: u32, r: Rec) -> Counted {
    let (home, _) = home_of(of, bytes)?;
    Ok(home.list(tag).iter().filter(|x| primary(x) < primary(&r)).count() as u32)
}

/// The place and length of a tag's records; (0, 0) for none and on refusal.
pub fn show(of: Of, bytes: &[u8], tag: u32) -> (usize, usize) {
    let Ok((home, at)) = home_of(of, bytes) else { return (0, 0) };
    match home.place_of(tag) {
        Some(p) => (at + p, 8 * home.list(tag).len()),
        None => (0, 0),
    }
}

#[derive(Clone, Copy)]
pub enum Merge {
    Both,
    Either,
    Without,
}

pub fn merge(of: Of, bytes: &[u8], m: Merge, first: u32, second: u32, out: &mut [u8]) -> Counted {
    let (home, _) = home_of(of, bytes)?;
    let (xs, ys) = (home.list(first), home.list(second));
    let has = |l: &[Rec], r: &Rec| l.iter().any(|x| primary(x) == primary(r));
    let mut list: Vec<Rec> = match m {
        Merge::Both => xs.iter().filter(|x| has(ys, x)).copied().collect(),
        Merge::Either => xs.iter().chain(ys.iter().filter(|y| !has(xs, y))).copied().collect(),
        Merge::Without => xs.iter().filter(|x| !has(ys, x)).copied().collect(),
    };
    list.sort();
    let written = list.concat();
    if out.len() < written.len() {
        return Err(15);
    }
    out[..written.len()].copy_from_slice(&written);
    Ok(list.len() as u32)
}

pub fn begin(image: &[u8], space: &mut [u8]) -> Result<(), u8> {
    image_home(image)?;
    let home = &image[home_at(image)..];
    if space.len() != home.len() {
        return Err(6);
    }
    space.copy_from_slice(home);
    Ok(())
}

// ---- calls that store: their stores, or the refusal

/// Whether the whole was done, and the stores made.
pub type Stored = Result<(bool, u32), u8>;

/// Offsets, and what is stored there.
#[derive(Default)]
pub struct Stores(Vec<(usize, u8)>);

impl Stores {
    fn run(&mut self, at: usize, bytes: &[u8]) {
        self.0.extend(bytes.iter().enumerate().map(|(i, &b)| (at + i, b)));
    }

    /// Makes as many as are allowed: whether that is all, and how many.
    pub fn make(&self, image: &mut [u8], allowed: u32) -> (bool, u32) {
        let n = self.0.len().min(allowed as usize);
        for &(at, b) in &self.0[..n] {
            image[at] = b;
        }
        (self.0.len() <= allowed as usize, n as u32)
    }

    /// The next one, if the allowance cuts them.
    pub fn next(&self, allowed: u32) -> Option<(usize, u8)> {
        self.0.get(allowed as usize).copied()
    }
}

pub fn format(image: &[u8], entries: u32, pages: u32, step: u32) -> Result<Stores, u8> {
    let (l, r) = (entries as usize, pages as usize);
    if !sizes(l, r) || capacities(step).is_none() || image.len() != length(l, r) {
        return Err(14);
    }
    let mut empty = vec![0; image.len()];
    empty[..4].copy_from_slice(b"CIX1");
    empty[4..6].copy_from_slice(&(l as u16).to_be_bytes());
    empty[6..8].copy_from_slice(&(r as u16).to_be_bytes());
    let home = home_at(&empty);
    empty[home + STEP] = step as u8;
    let mut s = Stores::default();
    s.run(0, &[0]);
    s.run(1, &empty[1..]);
    s.run(0, &empty[..1]);
    Ok(s)
}

pub fn commit(image: &[u8], space: &[u8]) -> Result<Stores, u8> {
    image_home(image)?;
    let (entries, pages) = head(image)?;
    if space.len() != 64 * (26 + pages) {
        return Err(6);
    }
    Home::read(space).ok_or(7)?;
    let at = home_at(image);
    let page = |b: &[u8], p: usize| b[64 * p..64 * p + 64].to_vec();
    let changed: Vec<usize> =
        (0..26 + pages).filter(|&p| page(&image[at..], p) != page(space, p)).collect();
    let k = changed.len();
    if k > entries {
        return Err(13);
    }
    let mut s = Stores::default();
    for (j, &p) in changed.iter().enumerate() {
        s.run(64 + 66 * j, &(p as u16).to_be_bytes());
        s.run(66 + 66 * j, &page(space, p));
    }
    if k > 0 {
        s.run(8, &(k as u16).to_be_bytes());
        s.run(10, &[MARKED]);
        for &p in &changed {
            s.run(at + 64 * p, &page(space, p));
        }
        s.run(10, &[0]);
        assert_eq!(s.0.len(), 130 * k + 4);
        assert_eq!(s.0[66 * k + 2], (10, MARKED));
    }
    Ok(s)
}

/// With mark 165 the log's pages and mark 0; with any other mark but 0 only mark 0.
pub fn recover(image: &[u8]) -> Result<Stores, u8> {
    let (entries, pages) = head(image)?;
    let mut s = Stores::default();
    if image[10] == MARKED {
        let k = two(image, 8);
        if k == 0 || k > entries {
            return Err(4);
        }
        let numbers: Vec<usize> = (0..k).map(|j| two(image, 64 + 66 * j)).collect();
        if numbers.iter().any(|&p| p >= 26 + pages) || numbers.windows(2).any(|w| w[0] >= w[1]) {
            return Err(4);
        }
        for (j, p) in numbers.iter().enumerate() {
            s.run(home_at(image) + 64 * p, &image[66 + 66 * j..130 + 66 * j]);
        }
    }
    if image[10] != 0 {
        s.run(10, &[0]);
    }
    Ok(s)
}
