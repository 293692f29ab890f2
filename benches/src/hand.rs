//! The same calls with the same checks in plain optimised Rust, as a firmware writer would have them.

const CLASSES: usize = 30;
const LONGEST: usize = 989;
/// The step code's byte.
const STEP: usize = 122;
const DICTIONARY: usize = 128;
const AREA: usize = 1664;

/// A step: the cells of a block by class, and the class by record count. Classes that a coarse step has not are
/// as large as its last.
pub struct Step {
    pub size: [usize; CLASSES],
    class: [u8; LONGEST + 1],
}

/// Capacities rise by times / parts and end at the longest list.
const fn step(times: usize, parts: usize) -> Step {
    let mut s = Step { size: [5; CLASSES], class: [0; LONGEST + 1] };
    let mut c = 1;
    while c < CLASSES {
        let capacity = ((s.size[c - 1] - 1) * times).div_ceil(parts);
        s.size[c] = 1 + if capacity < LONGEST { capacity } else { LONGEST };
        c += 1;
    }
    let (mut n, mut c) = (0, 0);
    while n <= LONGEST {
        if n >= s.size[c as usize] {
            c += 1;
        }
        s.class[n] = c;
        n += 1;
    }
    s
}

pub static FINE: Step = step(25, 21);
pub static COARSE: Step = step(31, 20);

/// The step of a home whose code is 0 or 1.
#[inline]
fn step_of(h: &[u8]) -> &'static Step {
    if h[STEP] == 0 {
        &FINE
    } else {
        &COARSE
    }
}

#[inline]
fn two(b: &[u8], at: usize) -> usize {
    u16::from_be_bytes([b[at], b[at + 1]]) as usize
}

#[inline]
fn four(b: &[u8], at: usize) -> u32 {
    u32::from_be_bytes(b[at..at + 4].try_into().unwrap())
}

#[inline]
fn set_two(b: &mut [u8], at: usize, v: usize) {
    b[at..at + 2].copy_from_slice(&(v as u16).to_be_bytes());
}

#[inline]
fn key(b: &[u8]) -> u64 {
    u64::from_be_bytes(b.try_into().unwrap()) >> 8
}

fn zero(b: &[u8]) -> bool {
    b.iter().fold(0, |acc, x| acc | x) == 0
}

fn rising(list: &[u8]) -> bool {
    let mut last = key(&list[..8]);
    let mut ok = true;
    for c in list[8..].chunks_exact(8) {
        let k = key(c);
        ok &= last < k;
        last = k;
    }
    ok
}

fn sized(h: &[u8]) -> bool {
    h.len() % 64 == 0 && (27..=1050).contains(&(h.len() / 64))
}

#[inline]
fn zone(h: &[u8], c: usize) -> (usize, usize) {
    (two(h, 2 + 4 * c), two(h, 4 + 4 * c))
}

fn set_zone(h: &mut [u8], c: usize, first: usize, count: usize) {
    set_two(h, 2 + 4 * c, if count == 0 { 0 } else { first });
    set_two(h, 4 + 4 * c, count);
}

#[inline]
fn at(cell: usize) -> usize {
    AREA + 8 * cell
}

fn blocks_sound(zone: &[u8], step: &Step, c: usize) -> bool {
    for block in zone.chunks_exact(8 * step.size[c]) {
        let n = two(block, 4);
        if n == 0 || n > LONGEST || step.class[n] as usize != c || two(block, 6) != 0 {
            return false;
        }
        let (list, rest) = block[8..].split_at(8 * n);
        if !rising(list) || !zero(rest) {
            return false;
        }
    }
    true
}

fn dictionary_sound(h: &[u8], step: &Step, tags: usize) -> bool {
    let cells = (h.len() - AREA) / 8;
    let mut low = 0u64;
    for e in h[DICTIONARY..DICTIONARY + 6 * tags].chunks_exact(6) {
        let (tag, cell) = (four(e, 0), two(e, 4));
        if (tag as u64) < low || cell >= cells {
            return false;
        }
        low = tag as u64 + 1;
        let header = &h[at(cell)..at(cell) + 8];
        let n = two(header, 4);
        if n > LONGEST || four(header, 0) != tag {
            return false;
        }
        let c = step.class[n] as usize;
        let (size, (first, count)) = (step.size[c], zone(h, c));
        if cell < first || cell >= first + count * size || (cell - first) % size != 0 {
            return false;
        }
    }
    zero(&h[DICTIONARY + 6 * tags..AREA])
}

/// The whole soundness test, each byte once.
pub fn sound(h: &[u8]) -> bool {
    if !sized(h) {
        return false;
    }
    let (tags, cells) = (two(h, 0), (h.len() - AREA) / 8);
    if tags > 256 || h[STEP] > 1 || !zero(&h[STEP + 1..DICTIONARY]) {
        return false;
    }
    let step = step_of(h);
    let (mut end, mut blocks) = (0, 0);
    for c in 0..CLASSES {
        let (first, count) = zone(h, c);
        if count == 0 {
            if first != 0 {
                return false;
            }
            continue;
        }
        let stop = first + count * step.size[c];
        if first < end || first - end >= step.size[c] || stop > cells || !zero(&h[at(end)..at(first)]) {
            return false;
        }
        if !blocks_sound(&h[at(first)..at(stop)], step, c) {
            return false;
        }
        blocks += count;
        end = stop;
    }
    blocks == tags && zero(&h[at(end)..]) && dictionary_sound(h, step, tags)
}

// ---- reads

/// The number of a tag's entry, or of the one that it would be.
fn find(h: &[u8], tag: u32) -> Result<usize, usize> {
    let (mut low, mut high) = (0, two(h, 0));
    while low < high {
        let mid = (low + high) / 2;
        if four(h, DICTIONARY + 6 * mid) < tag {
            low = mid + 1;
        } else {
            high = mid;
        }
    }
    if low < two(h, 0) && four(h, DICTIONARY + 6 * low) == tag {
        Ok(low)
    } else {
        Err(low)
    }
}

fn list(h: &[u8], tag: u32) -> &[u8] {
    match find(h, tag) {
        Ok(i) => {
            let a = at(two(h, DICTIONARY + 6 * i + 4));
            &h[a + 8..a + 8 + 8 * two(h, a + 4)]
        }
        Err(_) => &[],
    }
}

fn head(image: &[u8]) -> Result<usize, u8> {
    if image.len() < 64 || &image[..4] != b"CIX1" || !zero(&image[11..64]) {
        return Err(1);
    }
    let (l, r) = (two(image, 4), two(image, 6));
    let right = (1..=1024).contains(&r) && (1..=26 + r).contains(&l);
    if !right || image.len() != 64 + 66 * l + 64 * (26 + r) {
        return Err(1);
    }
    Ok(64 + 66 * l)
}

fn open(image: &[u8]) -> Result<usize, u8> {
    let home = head(image)?;
    if image[10] != 0 {
        return Err(3);
    }
    if sound(&image[home..]) {
        Ok(home)
    } else {
        Err(5)
    }
}

pub fn count_image(image: &[u8], tag: u32) -> Result<u32, u8> {
    Ok(list(&image[open(image)?..], tag).len() as u32 / 8)
}

pub fn rank_image(image: &[u8], tag: u32, r: [u8; 8]) -> Result<u32, u8> {
    let list = list(&image[open(image)?..], tag).as_chunks::<8>().0;
    Ok(list.partition_point(|x| key(x) < key(&r)) as u32)
}

pub fn show_image(image: &[u8], tag: u32) -> &[u8] {
    match open(image) {
        Ok(home) => list(&image[home..], tag),
        Err(_) => &[],
    }
}

pub fn either_image(image: &[u8], first: u32, second: u32, out: &mut [u8]) -> Result<u32, u8> {
    let h = &image[open(image)?..];
    let (xs, ys) = (list(h, first), list(h, second));
    let mut n = 0;
    either(xs, ys, |_| n += 8);
    if out.len() < n {
        return Err(15);
    }
    let mut k = 0;
    either(xs, ys, |r| {
        out[k..k + 8].copy_from_slice(r);
        k += 8;
    });
    Ok(n as u32 / 8)
}

fn either(mut xs: &[u8], mut ys: &[u8], mut f: impl FnMut(&[u8])) {
    while !xs.is_empty() && !ys.is_empty() {
        let (x, y) = (key(&xs[..8]), key(&ys[..8]));
        f(if x <= y { &xs[..8] } else { &ys[..8] });
        if x <= y {
            xs = &xs[8..];
        }
        if y <= x {
            ys = &ys[8..];
        }
    }
    for r in xs.chunks_exact(8).chain(ys.chunks_exact(8)) {
        f(r);
    }
}

pub fn begin(image: &[u8], space: &mut [u8]) -> Result<(), u8> {
    let home = &image[open(image)?..];
    if space.len() != home.len() {
        return Err(6);
    }
    space.copy_from_slice(home);
    Ok(())
}

// ---- put

/// A home's zone table: first cell and block count by class; and the cells of a block.
#[derive(Clone, Copy)]
struct Table {
    zones: [(usize, usize); CLASSES],
    size: &'static [usize; CLASSES],
}

fn table(h: &[u8]) -> Table {
    Table { zones: std::array::from_fn(|c| zone(h, c)), size: &step_of(h).size }
}

impl Table {
    fn end(&self, c: usize) -> usize {
        self.zones[c].0 + self.zones[c].1 * self.size[c]
    }

    fn end_below(&self, c: usize) -> usize {
        (0..c).rev().find(|&d| self.zones[d].1 > 0).map_or(0, |d| self.end(d))
    }

    fn next_above(&self, c: usize) -> Option<usize> {
        (c + 1..CLASSES).find(|&d| self.zones[d].1 > 0)
    }

    /// Whether blocks above can make room for one of class c at a cell.
    fn has_room(&self, c: usize, cell: usize, cells: usize) -> bool {
        match self.next_above(c) {
            None => cell + self.size[c] <= cells,
            Some(d) if cell + self.size[c] <= self.zones[d].0 => true,
            Some(d) => self.has_room(d, self.lifted_to(c, cell, d), cells),
        }
    }

    fn lifted_to(&self, c: usize, cell: usize, d: usize) -> usize {
        if self.zones[d].1 == 1 {
            cell + self.size[c]
        } else {
            self.end(d)
        }
    }

    fn total(&self) -> usize {
        (0..CLASSES).map(|c| self.zones[c].1 * self.size[c]).sum()
    }
}

/// Moves a block and corrects its dictionary entry; what it left is zero.
fn move_block(h: &mut [u8], from: usize, to: usize, size: usize) {
    let n = 8 * size;
    h.copy_within(at(from)..at(from) + n, at(to));
    let freed = if to > from { from..(from + size).min(to) } else { (to + size).max(from)..from + size };
    h[at(freed.start)..at(freed.end)].fill(0);
    let tag = four(h, at(to));
    if let Ok(i) = find(h, tag) {
        set_two(h, DICTIONARY + 6 * i + 4, to);
    }
}

fn make_room(h: &mut [u8], t: &mut Table, c: usize, cell: usize) {
    let Some(d) = t.next_above(c) else { return };
    if cell + t.size[c] <= t.zones[d].0 {
        return;
    }
    let to = t.lifted_to(c, cell, d);
    make_room(h, t, d, to);
    let (first, count) = t.zones[d];
    move_block(h, first, to, t.size[d]);
    t.zones[d].0 = if count == 1 { to } else { first + t.size[d] };
    set_zone(h, d, t.zones[d].0, count);
}

/// Makes room for a block of class c, counts it in, and answers its cell.
fn place(h: &mut [u8], t: &mut Table, c: usize) -> usize {
    let cell = t.end_below(c + 1);
    make_room(h, t, c, cell);
    let (first, count) = t.zones[c];
    t.zones[c] = (if count == 0 { cell } else { first }, count + 1);
    set_zone(h, c, t.zones[c].0, t.zones[c].1);
    cell
}

/// Takes a block of class c out and closes the gaps above.
fn take_out(h: &mut [u8], t: &mut Table, c: usize, cell: usize) {
    t.zones[c].1 -= 1;
    let (last, size) = (t.end(c), t.size[c]);
    if last == cell {
        h[at(cell)..at(cell + size)].fill(0);
    } else {
        move_block(h, last, cell, size);
    }
    set_zone(h, c, t.zones[c].0, t.zones[c].1);
    for d in c + 1..CLASSES {
        let size = t.size[d];
        while t.zones[d].1 > 0 && t.zones[d].0 - t.end_below(d) >= size {
            move_block(h, t.end(d) - size, t.zones[d].0 - size, size);
            t.zones[d].0 -= size;
            set_zone(h, d, t.zones[d].0, t.zones[d].1);
        }
    }
}

/// Moves the blocks of a zone and corrects their dictionary entries; what they left stays.
fn move_zone(h: &mut [u8], (first, count): (usize, usize), to: usize, size: usize) {
    h.copy_within(at(first)..at(first + count * size), at(to));
    for i in 0..count {
        let cell = to + i * size;
        if let Ok(e) = find(h, four(h, at(cell))) {
            set_two(h, DICTIONARY + 6 * e + 4, cell);
        }
    }
}

/// Lays all zones out from cell 0 without gaps, counts a block of class c in behind its zone, and answers
/// its cell. Each zone moves once: those that go up from the highest on, then the others from the lowest.
fn lay_afresh(h: &mut [u8], t: &mut Table, c: usize) -> usize {
    let old = *t;
    t.zones[c].1 += 1;
    let mut end = 0;
    for d in 0..CLASSES {
        t.zones[d].0 = end;
        end = t.end(d);
        set_zone(h, d, t.zones[d].0, t.zones[d].1);
    }
    for d in (0..CLASSES).rev().filter(|&d| t.zones[d].0 > old.zones[d].0) {
        move_zone(h, old.zones[d], t.zones[d].0, t.size[d]);
    }
    for d in (0..CLASSES).filter(|&d| t.zones[d].0 < old.zones[d].0) {
        move_zone(h, old.zones[d], t.zones[d].0, t.size[d]);
    }
    let old_end = old.end_below(CLASSES);
    if end < old_end {
        h[at(end)..at(old_end)].fill(0);
    }
    t.zones[c].0 + old.zones[c].1 * t.size[c]
}

/// How a put ended: the list's class stayed, its block found room, or all zones were laid out afresh.
#[derive(Clone, Copy, PartialEq)]
pub enum Way {
    Kept,
    Placed,
    Afresh,
}

/// Places a block of class c or lays all zones out afresh; answers its cell.
fn settle(h: &mut [u8], t: &mut Table, c: usize, cells: usize) -> (usize, Way) {
    if t.has_room(c, t.end_below(c + 1), cells) {
        (place(h, t, c), Way::Placed)
    } else {
        (lay_afresh(h, t, c), Way::Afresh)
    }
}

fn write_block(h: &mut [u8], cell: usize, size: usize, tag: u32, list: &[u8]) {
    let b = &mut h[at(cell)..at(cell + size)];
    b[..4].copy_from_slice(&tag.to_be_bytes());
    set_two(b, 4, list.len() / 8);
    b[6..8].fill(0);
    b[8..8 + list.len()].copy_from_slice(list);
    b[8 + list.len()..].fill(0);
}

/// Whether a new tag's building has 8 tags or more, and no more are unused than the buildings below 8 lack.
fn building_full(h: &[u8], tag: u32) -> bool {
    let tags = two(h, 0);
    let mut owned = [0usize; 16];
    for e in h[DICTIONARY..DICTIONARY + 6 * tags].chunks_exact(6) {
        owned[e[0] as usize >> 4] += 1;
    }
    let lack: usize = owned.iter().map(|&n| 8usize.saturating_sub(n)).sum();
    owned[tag as usize >> 28] >= 8 && 256 - tags <= lack
}

/// Adds a tag as the i-th, with its block.
fn add_tag(h: &mut [u8], i: usize, cell: usize, size: usize, tag: u32, list: &[u8]) {
    let (entry, tags) = (DICTIONARY + 6 * i, two(h, 0));
    h.copy_within(entry..DICTIONARY + 6 * tags, entry + 6);
    h[entry..entry + 4].copy_from_slice(&tag.to_be_bytes());
    set_two(h, entry + 4, cell);
    set_two(h, 0, tags + 1);
    write_block(h, cell, size, tag, list);
}

/// A workspace of blocks of these classes, which rise, without gaps. Tags count from 0, and each block is
/// filled with the first of the records.
pub fn packed(pages: usize, classes: &[usize], records: &[u8]) -> Vec<u8> {
    let mut h = vec![0; AREA + 64 * pages];
    let mut t = table(&h);
    for (i, &c) in classes.iter().enumerate() {
        let cell = place(&mut h, &mut t, c);
        add_tag(&mut h, i, cell, t.size[c], i as u32, &records[..8 * (t.size[c] - 1)]);
    }
    h
}

pub fn put(space: &mut [u8], tag: u32, r: [u8; 8]) -> Result<u32, u8> {
    put_by(space, tag, r).map(|(n, _)| n)
}

/// The list's count afterwards, and how the put ended.
pub fn put_by(space: &mut [u8], tag: u32, r: [u8; 8]) -> Result<(u32, Way), u8> {
    if !sized(space) {
        return Err(6);
    }
    if !sound(space) {
        return Err(7);
    }
    let cells = (space.len() - AREA) / 8;
    let slot = find(space, tag);
    let Ok(i) = slot else {
        let i = slot.unwrap_err();
        if building_full(space, tag) {
            return Err(19);
        }
        if two(space, 0) == 256 {
            return Err(11);
        }
        let mut t = table(space);
        if t.total() + t.size[0] > cells {
            return Err(12);
        }
        let (cell, way) = settle(space, &mut t, 0, cells);
        add_tag(space, i, cell, t.size[0], tag, &r);
        return Ok((1, way));
    };
    let entry = DICTIONARY + 6 * i;
    let cell = two(space, entry + 4);
    let (a, k) = (at(cell), key(&r));
    let n = two(space, a + 4);
    let rank = {
        let (mut low, mut high) = (0, n);
        while low < high {
            let mid = (low + high) / 2;
            if key(&space[a + 8 + 8 * mid..a + 16 + 8 * mid]) < k {
                low = mid + 1;
            } else {
                high = mid;
            }
        }
        low
    };
    let there = a + 8 + 8 * rank;
    if rank < n && key(&space[there..there + 8]) == k {
        return Err(8);
    }
    if n == LONGEST {
        return Err(10);
    }
    let class = &step_of(space).class;
    let (old, new) = (class[n] as usize, class[n + 1] as usize);
    if old == new {
        space.copy_within(there..a + 8 + 8 * n, there + 8);
        space[there..there + 8].copy_from_slice(&r);
        set_two(space, a + 4, n + 1);
        return Ok((n as u32 + 1, Way::Kept));
    }
    let mut t = table(space);
    if t.total() - t.size[old] + t.size[new] > cells {
        return Err(12);
    }
    let mut aside = [0u8; 8 * LONGEST];
    aside[..8 * rank].copy_from_slice(&space[a + 8..there]);
    aside[8 * rank..8 * rank + 8].copy_from_slice(&r);
    aside[8 * rank + 8..8 * n + 8].copy_from_slice(&space[there..a + 8 + 8 * n]);
    take_out(space, &mut t, old, cell);
    let (cell, way) = settle(space, &mut t, new, cells);
    write_block(space, cell, t.size[new], tag, &aside[..8 * n + 8]);
    set_two(space, entry + 4, cell);
    Ok((n as u32 + 1, way))
}

// ---- calls that store

struct Meter {
    left: usize,
    made: usize,
}

impl Meter {
    #[inline]
    fn store(&mut self, image: &mut [u8], at: usize, bytes: &[u8]) {
        let n = bytes.len().min(self.left);
        image[at..at + n].copy_from_slice(&bytes[..n]);
        self.left -= n;
        self.made += n;
    }

    fn replay(&mut self, image: &mut [u8], k: usize, home: usize) {
        for j in 0..k {
            let p = two(image, 64 + 66 * j);
            let mut page = [0; 64];
            page.copy_from_slice(&image[66 + 66 * j..130 + 66 * j]);
            self.store(image, home + 64 * p, &page);
        }
        self.store(image, 10, &[0]);
    }
}

/// Whether it was done, and the stores made.
pub fn commit(image: &mut [u8], space: &[u8], stores: u32) -> Result<(bool, u32), u8> {
    let home = open(image)?;
    if space.len() != image.len() - home {
        return Err(6);
    }
    if !sound(space) {
        return Err(7);
    }
    let pages = space.len() / 64;
    let differs = |image: &[u8], p: usize| image[home + 64 * p..][..64] != space[64 * p..][..64];
    let k = (0..pages).filter(|&p| differs(image, p)).count();
    if k > (home - 64) / 66 {
        return Err(13);
    }
    if k == 0 {
        return Ok((true, 0));
    }
    let mut m = Meter { left: stores as usize, made: 0 };
    let mut j = 0;
    for p in 0..pages {
        if differs(image, p) {
            m.store(image, 64 + 66 * j, &(p as u16).to_be_bytes());
            m.store(image, 66 + 66 * j, &space[64 * p..][..64]);
            j += 1;
        }
    }
    m.store(image, 8, &(k as u16).to_be_bytes());
    m.store(image, 10, &[165]);
    if m.left > 0 {
        m.replay(image, k, home);
    }
    Ok((m.made == 130 * k + 4, m.made as u32))
}

pub fn recover(image: &mut [u8], stores: u32) -> Result<(bool, u32), u8> {
    let home = head(image)?;
    let mut m = Meter { left: stores as usize, made: 0 };
    match image[10] {
        0 => return Ok((true, 0)),
        165 => {}
        _ => {
            m.store(image, 10, &[0]);
            return Ok((m.made == 1, m.made as u32));
        }
    }
    let (k, pages) = (two(image, 8), (image.len() - home) / 64);
    if k == 0 || k > (home - 64) / 66 {
        return Err(4);
    }
    let mut low = 0;
    for j in 0..k {
        let p = two(image, 64 + 66 * j);
        if p < low || p >= pages {
            return Err(4);
        }
        low = p + 1;
    }
    m.replay(image, k, home);
    Ok((m.made == 64 * k + 1, m.made as u32))
}
