//! The specification's book of a list of commits and recoveries, which foretells each answer. It is
//! fed the home bytes and log capacity at the start, then of each call its workspace, its allowance
//! and what the byte caught holds. It never looks at an image.
use crate::model::{Home, Stored, MARKED};

#[derive(Clone)]
pub struct Book {
    entries: usize,
    /// What a recovery that finishes next leaves in home.
    pub kept: Vec<u8>,
    /// The pages still owed to home.
    pub owed: usize,
    pub mark: u8,
    /// The workspace last logged, and its number of changed pages.
    logged: (Vec<u8>, usize),
}

/// The number of pages in which two homes differ.
pub fn changed(a: &[u8], b: &[u8]) -> usize {
    a.chunks(64).zip(b.chunks(64)).filter(|(a, b)| a != b).count()
}

impl Book {
    pub fn new(entries: usize, home: &[u8]) -> Book {
        Book { entries, kept: home.to_vec(), owed: 0, mark: 0, logged: (home.to_vec(), 0) }
    }

    /// A commit's answer. What is told counts only if the call is cut.
    pub fn commit(&mut self, w: &[u8], allowed: u32, told: u8) -> Stored {
        if self.mark != 0 {
            return Err(3);
        }
        if w.len() != self.kept.len() {
            return Err(6);
        }
        if Home::read(w).is_none() {
            return Err(7);
        }
        let (k, n) = (changed(w, &self.kept), allowed as usize);
        if k > self.entries {
            return Err(13);
        }
        if k == 0 {
            return Ok((true, 0));
        }
        if n >= 66 * k + 2 {
            self.logged = (w.to_vec(), k);
        }
        if n >= 66 * k + 3 {
            self.set_mark(MARKED);
        }
        if n >= 130 * k + 4 {
            self.set_mark(0);
            return Ok((true, 130 * k as u32 + 4));
        }
        if n == 66 * k + 2 || n == 130 * k + 3 {
            self.set_mark(told);
        }
        Ok((false, allowed))
    }

    /// A recovery's answer, which is never a refusal.
    pub fn recover(&mut self, allowed: u32, told: u8) -> Stored {
        let need = self.need();
        if allowed >= need {
            self.set_mark(0);
            return Ok((true, need));
        }
        if allowed + 1 == need {
            self.set_mark(told);
        }
        Ok((false, allowed))
    }

    /// The stores that a recovery needs.
    pub fn need(&self) -> u32 {
        match self.mark {
            0 => 0,
            MARKED => 64 * self.owed as u32 + 1,
            _ => 1,
        }
    }

    /// The mark was stored, or caught as this value.
    fn set_mark(&mut self, mark: u8) {
        self.mark = mark;
        self.owed = 0;
        if mark == MARKED {
            (self.kept, self.owed) = self.logged.clone();
        }
    }
}
