//! An image and a workspace on which each call is made twice, by the library and by the model.
use crate::book::Book;
use crate::model::{self, Merge, Of, Rec, Stores, STEP};
use crate::random::Random;
use crate::Tally;
use cix::{Record, Refusal, Step, Stored};

#[derive(Clone)]
pub struct Pair {
    pub image: Vec<u8>,
    pub space: Vec<u8>,
    /// Foretells commits and recoveries from where it was opened.
    pub book: Option<Book>,
}

/// What the byte caught holds: the byte that the next store of a cut call was meant for.
#[derive(Clone, Copy)]
pub enum Told {
    Stood,
    Meant,
    Value(u8),
}

/// Where a call is put from.
#[derive(Clone, Copy)]
pub enum Terminal {
    Desk,
    Pit,
}

fn record(r: Rec) -> Record {
    Record::from_bytes(r)
}

fn stored(r: Result<Stored, Refusal>) -> model::Stored {
    r.map_err(Refusal::number).map(|s| match s {
        Stored::Done(n) => (true, n),
        Stored::Cut(n) => (false, n),
    })
}

extern "C" {
    fn cix_format(image: *mut u8, image_len: usize, entries: u32, pages: u32, step: u32, stores: u32) -> u64;
}

/// The library's format with any step code, of which the wrapper takes 0 and 1 only.
fn format(image: &mut [u8], entries: u32, pages: u32, step: u32, stores: u32) -> model::Stored {
    match step {
        0 => return stored(cix::format(image, entries, pages, Step::Fine, stores)),
        1 => return stored(cix::format(image, entries, pages, Step::Coarse, stores)),
        _ => (),
    }
    let answer = unsafe { cix_format(image.as_mut_ptr(), image.len(), entries, pages, step, stores) };
    match answer >> 32 {
        2 => Err(answer as u8),
        kind => Ok((kind == 0, answer as u32)),
    }
}

/// A home's dictionary: tags and cells.
pub fn dictionary(home: &[u8]) -> Vec<(u32, u16)> {
    let tags = u16::from_be_bytes([home[0], home[1]]) as usize;
    let entry = |e: &[u8]| (u32::from_be_bytes([e[0], e[1], e[2], e[3]]), u16::from_be_bytes([e[4], e[5]]));
    home[128..].chunks(6).take(tags).map(entry).collect()
}

impl Tally {
    /// Counts one call, whose answers by library and model must agree.
    fn same<T: PartialEq + std::fmt::Debug>(&mut self, call: &str, library: Result<T, u8>, model: Result<T, u8>) {
        self.calls += 1;
        assert_eq!(library, model, "{call}: the library's answer, the model's");
        if let Err(n) = library {
            self.refused[n as usize] += 1;
        }
    }
}

fn same_bytes(call: &str, library: &[u8], model: &[u8]) {
    if let Some(i) = (0..library.len()).find(|&i| library[i] != model[i]) {
        panic!("{call}: byte {i} is {} by the library, {} by the model", library[i], model[i]);
    }
}

impl Pair {
    /// An image and a workspace with any bytes.
    pub fn blank(rng: &mut Random, entries: u32, pages: u32) -> Pair {
        let mut bytes = |n: usize| (0..n).map(|_| rng.next() as u8).collect();
        let (image, space) = (bytes(cix::image_bytes(entries, pages)), bytes(cix::space_bytes(pages)));
        Pair { image, space, book: None }
    }

    pub fn formatted(entries: u32, pages: u32, step: u32, tally: &mut Tally) -> Pair {
        let mut p = Pair::blank(&mut Random::new(1), entries, pages);
        p.format(entries, pages, step, cix::ALL, tally);
        p
    }

    /// A formatted one with the largest log, begun.
    pub fn begun(pages: u32, step: u32, tally: &mut Tally) -> Pair {
        let mut p = Pair::formatted(26 + pages, pages, step, tally);
        p.begin(tally);
        p
    }

    pub fn home(&self) -> &[u8] {
        &self.image[model::home_at(&self.image)..]
    }

    /// Opens the book on a sound image with mark 0.
    pub fn open_book(&mut self) {
        let entries = u16::from_be_bytes([self.image[4], self.image[5]]);
        self.book = Some(Book::new(entries as usize, self.home()));
    }

    pub fn format(&mut self, entries: u32, pages: u32, step: u32, stores: u32, tally: &mut Tally) {
        let before = self.image.clone();
        let l = format(&mut self.image, entries, pages, step, stores);
        let m = model::format(&before, entries, pages, step);
        self.same_stores("format", before, l, &m, stores, tally);
    }

    pub fn begin(&mut self, tally: &mut Tally) {
        let mut space = self.space.clone();
        let m = model::begin(&self.image, &mut space);
        let l = cix::begin(&self.image, &mut self.space).map_err(Refusal::number);
        tally.same("begin", l, m);
        same_bytes("begin", &self.space, &space);
    }

    fn edit(
        &mut self,
        call: &str,
        tally: &mut Tally,
        library: impl Fn(&mut [u8]) -> Result<u32, Refusal>,
        model: impl Fn(&mut [u8]) -> model::Counted,
    ) {
        let mut space = self.space.clone();
        let m = model(&mut space);
        tally.same(call, library(&mut self.space).map_err(Refusal::number), m);
        same_bytes(call, &self.space, &space);
    }

    pub fn put(&mut self, tag: u32, r: Rec, tally: &mut Tally) {
        self.edit("put", tally, |s| cix::put(s, tag, record(r)), |s| model::put(s, tag, r));
    }

    pub fn put_pit(&mut self, tag: u32, r: Rec, tally: &mut Tally) {
        self.edit("put from the pit", tally, |s| cix::put_pit(s, tag, record(r)), |s| model::put_pit(s, tag, r));
    }

    pub fn put_by(&mut self, by: Terminal, tag: u32, r: Rec, tally: &mut Tally) {
        match by {
            Terminal::Desk => self.put(tag, r, tally),
            Terminal::Pit => self.put_pit(tag, r, tally),
        }
    }

    pub fn delete(&mut self, tag: u32, r: Rec, tally: &mut Tally) {
        self.edit("delete", tally, |s| cix::delete(s, tag, record(r)), |s| model::delete(s, tag, r));
    }

    pub fn set_minutes(&mut self, tag: u32, r: Rec, tally: &mut Tally) {
        self.edit(
            "set",
            tally,
            |s| cix::set_minutes(s, tag, record(r)),
            |s| model::set_minutes(s, tag, r),
        );
    }

    pub fn drop_tag(&mut self, tag: u32, tally: &mut Tally) {
        self.edit("drop", tally, |s| cix::drop_tag(s, tag), |s| model::drop_tag(s, tag));
    }

    /// Makes the workspace one of the other step code, to which its lists are put, as far as they fit.
    pub fn change_step(&mut self, tally: &mut Tally) {
        let old = self.space.clone();
        self.space.fill(0);
        self.space[STEP] = old[STEP] ^ 1;
        for (tag, _) in dictionary(&old) {
            for r in model::records(cix::show_space(&old, tag)) {
                self.put(tag, r, tally);
            }
        }
    }

    pub fn commit(&mut self, stores: u32, told: Told, tally: &mut Tally) {
        let before = self.image.clone();
        let l = stored(cix::commit(&mut self.image, &self.space, stores));
        let m = model::commit(&before, &self.space);
        self.same_stores("commit", before, l, &m, stores, tally);
        let told = self.catch(&m, stores, told);
        if let Some(book) = &mut self.book {
            let foretold = book.commit(&self.space, stores, told);
            assert_eq!(l, foretold, "commit: the library's answer, the book's");
        }
    }

    pub fn recover(&mut self, stores: u32, told: Told, tally: &mut Tally) {
        let before = self.image.clone();
        let l = stored(cix::recover(&mut self.image, stores));
        let m = model::recover(&before);
        self.same_stores("recover", before, l, &m, stores, tally);
        let told = self.catch(&m, stores, told);
        if let Some(book) = &mut self.book {
            let foretold = book.recover(stores, told);
            assert_eq!(l, foretold, "recover: the library's answer, the book's");
        }
    }

    /// Compares a call that stores with the model's stores, made on the bytes from before it.
    fn same_stores(
        &self,
        call: &str,
        mut before: Vec<u8>,
        library: model::Stored,
        model: &Result<Stores, u8>,
        stores: u32,
        tally: &mut Tally,
    ) {
        let made = model.as_ref().map(|s| s.make(&mut before, stores)).map_err(|&n| n);
        tally.same(call, library, made);
        same_bytes(call, &self.image, &before);
    }

    /// Writes the byte caught, if there is one, and answers what it holds.
    fn catch(&mut self, model: &Result<Stores, u8>, stores: u32, told: Told) -> u8 {
        let Some((at, meant)) = model.as_ref().ok().and_then(|s| s.next(stores)) else { return 0 };
        match told {
            Told::Stood => {}
            Told::Meant => self.image[at] = meant,
            Told::Value(v) => self.image[at] = v,
        }
        self.image[at]
    }

    fn bytes(&self, of: Of) -> &[u8] {
        match of {
            Of::Image => &self.image,
            Of::Space => &self.space,
        }
    }

    pub fn count(&mut self, of: Of, tag: u32, tally: &mut Tally) {
        let b = self.bytes(of);
        let l = match of {
            Of::Image => cix::count_image(b, tag),
            Of::Space => cix::count_space(b, tag),
        };
        tally.same("count", l.map_err(Refusal::number), model::count(of, b, tag));
    }

    pub fn rank(&self, of: Of, tag: u32, r: Rec, tally: &mut Tally) -> model::Counted {
        let b = self.bytes(of);
        let l = match of {
            Of::Image => cix::rank_image(b, tag, record(r)),
            Of::Space => cix::rank_space(b, tag, record(r)),
        };
        let l = l.map_err(Refusal::number);
        tally.same("rank", l, model::rank(of, b, tag, r));
        l
    }

    pub fn show(&mut self, of: Of, tag: u32, tally: &mut Tally) {
        let b = self.bytes(of);
        let l = match of {
            Of::Image => cix::show_image(b, tag),
            Of::Space => cix::show_space(b, tag),
        };
        let place = l.as_ptr() as usize - b.as_ptr() as usize;
        tally.same("show", Ok((place, l.len())), Ok(model::show(of, b, tag)));
    }

    pub fn merge(&mut self, of: Of, rng: &mut Random, tags: u32, tally: &mut Tally) {
        let (first, second) = (rng.tag(tags), rng.tag(tags));
        let room = if rng.one_in(3) { rng.below(60) } else { 16_000 };
        let mut out: Vec<u8> = (0..room).map(|i| i as u8).collect();
        let mut other = out.clone();
        let (l, m) = match rng.below(3) {
            0 => (cix::Merge::Both, Merge::Both),
            1 => (cix::Merge::Either, Merge::Either),
            _ => (cix::Merge::Without, Merge::Without),
        };
        let b = self.bytes(of);
        let l = match of {
            Of::Image => cix::merge_image(b, l, first, second, &mut out),
            Of::Space => cix::merge_space(b, l, first, second, &mut out),
        };
        let m = model::merge(of, b, m, first, second, &mut other);
        tally.same("merge", l.map_err(Refusal::number), m);
        same_bytes("merge", &out, &other);
    }
}
