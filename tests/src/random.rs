//! Random choices from a seed.
use crate::model::{Of, Rec, MARKED, STEP};
use crate::pair::{Pair, Terminal, Told};

pub struct Random(u64);

impl Random {
    pub fn new(seed: u64) -> Random {
        Random(seed)
    }

    pub fn next(&mut self) -> u64 {
        self.0 = self.0.wrapping_add(0x9e3779b97f4a7c15);
        let z = (self.0 ^ self.0 >> 30).wrapping_mul(0xbf58476d1ce4e5b9);
        let z = (z ^ z >> 27).wrapping_mul(0x94d049bb133111eb);
        z ^ z >> 31
    }

    pub fn below(&mut self, n: u32) -> u32 {
        (self.next() % n as u64) as u32
    }

    pub fn one_in(&mut self, n: u32) -> bool {
        self.below(n) == 0
    }

    pub fn shuffle<T>(&mut self, items: &mut [T]) {
        for i in (1..items.len()).rev() {
            items.swap(i, self.below(i as u32 + 1) as usize);
        }
    }

    /// One of so many tags, up to 1,600; 0 and the highest are among them. Each hundred is of another building.
    pub fn tag(&mut self, tags: u32) -> u32 {
        match self.below(tags) {
            1 => u32::MAX,
            t => t / 100 << 28 | t * 3,
        }
    }

    pub fn record(&mut self, seconds: u32) -> Rec {
        let s = self.below(seconds).to_be_bytes();
        let minutes = self.next() as u8;
        let phone = if self.one_in(8) { [255, 255] } else { [0, self.below(2) as u8] };
        [[0, 0, 1, 255][self.below(4) as usize], s[0], s[1], s[2], s[3], phone[0], phone[1], minutes]
    }

    pub fn terminal(&mut self) -> Terminal {
        if self.one_in(2) {
            Terminal::Desk
        } else {
            Terminal::Pit
        }
    }

    /// A record of the workspace's list with other minutes, mostly.
    pub fn listed(&mut self, p: &Pair, tag: u32, seconds: u32) -> Rec {
        let (at, n) = crate::model::show(Of::Space, &p.space, tag);
        if n == 0 || self.one_in(6) {
            return self.record(seconds);
        }
        let at = at + 8 * self.below(n as u32 / 8) as usize;
        let mut r: Rec = p.space[at..at + 8].try_into().unwrap();
        r[7] = self.next() as u8;
        r
    }

    /// An allowance of stores, mostly about n.
    pub fn allowance(&mut self, n: u32) -> u32 {
        match self.below(8) {
            0 => 0,
            1 => u32::MAX,
            _ => self.below(n),
        }
    }

    /// What a byte caught holds: often the marks, or what stood there.
    pub fn told(&mut self) -> Told {
        match self.below(8) {
            0 => Told::Value(0),
            1 => Told::Value(MARKED),
            2..=4 => Told::Stood,
            5 => Told::Meant,
            _ => Told::Value(self.next() as u8),
        }
    }

    /// Spoils one byte: anywhere, or where the head, the log's page numbers and the records are.
    pub fn spoil(&mut self, bytes: &mut [u8]) {
        let n = bytes.len() as u32;
        let at = match self.below(6) {
            0 => self.below(n.min(64)),
            1 => (64 + 66 * self.below(4) + self.below(2)) % n,
            2 => n - 1 - self.below(n.min(600)),
            _ => self.below(n),
        };
        let old = bytes[at as usize];
        bytes[at as usize] = match self.below(4) {
            0 => old.wrapping_add(1),
            1 => old.wrapping_sub(1),
            2 => old ^ 1 << self.below(8),
            _ => self.next() as u8,
        };
    }

    /// A step code, or a number that is none.
    pub fn any_step(&mut self) -> u32 {
        match self.below(4) {
            0 => [2, 255, 256, u32::MAX][self.below(4) as usize],
            _ => self.below(2),
        }
    }

    /// Spoils home's step code or a zero behind it.
    pub fn spoil_step(&mut self, home: &mut [u8]) {
        match self.below(4) {
            0 | 1 => home[STEP] ^= 1,
            2 => home[STEP] = self.next() as u8,
            _ => home[STEP + 1 + self.below(5) as usize] = self.next() as u8,
        }
    }
}
