//! A call index for the emergency phone units of passenger elevators: safe Rust over a library that
//! is proved in Rattle.
//!
//! For each tag the index keeps the calls on record in order: by level, then second, then phone. It
//! lives on an *image*, a buffer of [`image_bytes`] that the caller keeps. Edits are made on a
//! *workspace*, a buffer of [`space_bytes`], and reach the image by [`commit`], through a log, so
//! that a power cut at any store, or in the middle of a byte, leaves the old index or the new one.
//! Nothing is kept between calls and nothing is allocated. The bytes may be anything: what is not
//! right is refused, and a refused call changes no byte.
//!
//! ```
//! use cix::{Record, Step, Stored};
//!
//! let (entries, pages) = (90, 64);
//! let mut image = vec![0; cix::image_bytes(entries, pages)];
//! let mut space = vec![0; cix::space_bytes(pages)];
//! cix::format(&mut image, entries, pages, Step::Fine, cix::ALL)?;
//!
//! cix::begin(&image, &mut space)?;
//! let call = Record { level: 1, second: 100, phone: 9, minutes: 0 };
//! assert_eq!(cix::put(&mut space, 7, call), Ok(1));
//! assert_eq!(cix::commit(&mut image, &space, cix::ALL), Ok(Stored::Done(394)));
//!
//! assert_eq!(cix::records(cix::show_image(&image, 7)).next(), Some(call));
//! # Ok::<(), cix::Refusal>(())
//! ```

mod ffi;

use std::fmt;

/// More stores than any call needs: such a call is never cut.
pub const ALL: u32 = u32::MAX;

/// A call on record. Level, second and phone name it and give its place in a list.
#[derive(Clone, Copy, Debug, PartialEq, Eq)]
pub struct Record {
    /// The priority, 0 foremost.
    pub level: u8,
    /// When the call began.
    pub second: u32,
    pub phone: u16,
    /// How long the line was open.
    pub minutes: u8,
}

impl Record {
    /// The record in 8 bytes: level, second, phone, minutes, most significant byte first.
    pub fn from_bytes(b: [u8; 8]) -> Record {
        Record {
            level: b[0],
            second: u32::from_be_bytes([b[1], b[2], b[3], b[4]]),
            phone: u16::from_be_bytes([b[5], b[6]]),
            minutes: b[7],
        }
    }
}

/// The records in bytes, as [`show_image`] hands them out or a merge writes them.
pub fn records(bytes: &[u8]) -> impl Iterator<Item = Record> + '_ {
    bytes.chunks_exact(8).map(|b| Record::from_bytes(b.try_into().unwrap()))
}

/// How a block's capacity grows when its list does. An index keeps its step until a workspace with the
/// other one is committed.
#[derive(Clone, Copy, Debug, PartialEq, Eq)]
pub enum Step {
    /// 4, 5, 6, 8, 10, .. 989 records: each the one before times 25/21.
    Fine = 0,
    /// 4, 7, 11, 18, 28, .. 989 records: each the one before times 31/20. Fewer blocks move, and they
    /// take more space.
    Coarse = 1,
}

/// Why a call is refused. No lent byte is then changed.
#[derive(Clone, Copy, Debug, PartialEq, Eq)]
pub enum Refusal {
    BadHead = 1,
    /// No longer given.
    BadMark = 2,
    Unrecovered = 3,
    BadLog = 4,
    UnsoundHome = 5,
    SpaceLength = 6,
    UnsoundSpace = 7,
    Listed = 8,
    Unknown = 9,
    ListFull = 10,
    TagsFull = 11,
    NoRoom = 12,
    LogShort = 13,
    Sizes = 14,
    OutputShort = 15,
    PitFull = 17,
    BuildingFull = 19,
}

const REFUSALS: [(Refusal, &str); 17] = [
    (Refusal::BadHead, "the image's head or length is not right"),
    (Refusal::BadMark, "no longer given"),
    (Refusal::Unrecovered, "the image's mark is not 0: recover first"),
    (Refusal::BadLog, "the log's count or page numbers are not right"),
    (Refusal::UnsoundHome, "the image's home is not sound"),
    (Refusal::SpaceLength, "the workspace has the wrong length"),
    (Refusal::UnsoundSpace, "the workspace is not sound"),
    (Refusal::Listed, "that call is on the list already"),
    (Refusal::Unknown, "no such call or tag"),
    (Refusal::ListFull, "the list has 989 calls"),
    (Refusal::TagsFull, "there are 256 tags"),
    (Refusal::NoRoom, "all blocks together would not fit"),
    (Refusal::LogShort, "more pages differ than the log has entries"),
    (Refusal::Sizes, "sizes or step code out of range, or the length does not match"),
    (Refusal::OutputShort, "the output is shorter than the records to write"),
    (Refusal::PitFull, "the list has 64 calls or more"),
    (Refusal::BuildingFull, "the unused tags are kept for buildings that have fewer than 8"),
];

fn refusal(number: u32) -> &'static (Refusal, &'static str) {
    REFUSALS.iter().find(|r| r.0 as u32 == number).unwrap()
}

impl Refusal {
    /// Its number: 1 to 15, 17 or 19.
    pub fn number(self) -> u8 {
        self as u8
    }
}

impl fmt::Display for Refusal {
    fn fmt(&self, f: &mut fmt::Formatter) -> fmt::Result {
        f.write_str(refusal(*self as u32).1)
    }
}

impl std::error::Error for Refusal {}

/// How a call that stores ended, with the number of stores that it made.
#[derive(Clone, Copy, Debug, PartialEq, Eq)]
pub enum Stored {
    Done(u32),
    /// The allowance ran out first.
    Cut(u32),
}

pub type Result<T> = std::result::Result<T, Refusal>;

// An answer's upper half says what it is, its lower half has the number.
fn stored(answer: u64) -> Result<Stored> {
    let number = answer as u32;
    match answer >> 32 {
        0 => Ok(Stored::Done(number)),
        1 => Ok(Stored::Cut(number)),
        _ => Err(refusal(number).0),
    }
}

fn counted(answer: u64) -> Result<u32> {
    stored(answer).map(|s| match s {
        Stored::Done(n) | Stored::Cut(n) => n,
    })
}

fn shown(bytes: &[u8], answer: u64) -> &[u8] {
    &bytes[(answer >> 32) as usize..][..answer as u32 as usize]
}

/// The bytes of a workspace for so many record pages.
pub const fn space_bytes(pages: u32) -> usize {
    64 * (26 + pages as usize)
}

/// The bytes of an image for so many log entries and record pages.
pub const fn image_bytes(entries: u32, pages: u32) -> usize {
    64 + 66 * entries as usize + space_bytes(pages)
}

/// Makes the image an empty index: 1 to 1,024 record pages, 1 to 26 + pages log entries.
///
/// ```
/// use cix::{Record, Refusal, Step};
///
/// let mut image = vec![0; cix::image_bytes(28, 2)];
/// let mut space = vec![0; cix::space_bytes(2)];
/// let call = |second| Record { level: 1, second, phone: 9, minutes: 0 };
/// for (step, most) in [(Step::Fine, 15), (Step::Coarse, 11)] {
///     cix::format(&mut image, 28, 2, step, cix::ALL)?;
///     cix::begin(&image, &mut space)?;
///     for n in 1..=most {
///         assert_eq!(cix::put(&mut space, 7, call(n)), Ok(n));
///     }
///     assert_eq!(cix::put(&mut space, 7, call(0)), Err(Refusal::NoRoom));
/// }
/// # Ok::<(), Refusal>(())
/// ```
pub fn format(image: &mut [u8], entries: u32, pages: u32, step: Step, stores: u32) -> Result<Stored> {
    stored(unsafe {
        ffi::cix_format(image.as_mut_ptr(), image.len(), entries, pages, step as u32, stores)
    })
}

/// Copies the image's index to a workspace, whose old bytes do not matter.
pub fn begin(image: &[u8], space: &mut [u8]) -> Result<()> {
    counted(unsafe { ffi::cix_begin(image.as_ptr(), image.len(), space.as_mut_ptr(), space.len()) })
        .map(|_| ())
}

/// Puts a record to a tag's list. Answers the list's count afterwards. Where its block finds no room,
/// all blocks are laid out afresh without gaps, so [`Refusal::NoRoom`] means that they would not fit.
///
/// ```
/// use cix::{Record, Refusal};
///
/// let mut space = vec![0; cix::space_bytes(2)];
/// let call = |second| Record { level: 1, second, phone: 9, minutes: 0 };
/// cix::put(&mut space, 7, call(1))?;
/// for n in 1..=6 {
///     cix::put(&mut space, 9, call(n))?;
/// }
/// cix::drop_tag(&mut space, 7)?; // leaves a gap, which the last of these puts needs
/// for n in 1..=6 {
///     assert_eq!(cix::put(&mut space, 11, call(n)), Ok(n));
/// }
/// for tag in [9, 11] {
///     assert!(cix::records(cix::show_space(&space, tag)).eq((1..=6).map(call)));
/// }
/// assert_eq!(cix::put(&mut space, 13, call(1)), Err(Refusal::NoRoom));
/// # Ok::<(), Refusal>(())
/// ```
///
/// The top four bits of a tag name one of 16 buildings, and each is sure of 8 of the 256 tags. One that has 8 or
/// more may add a tag only while more are unused than the buildings below 8 still lack; otherwise the put is
/// [`Refusal::BuildingFull`]. So [`Refusal::TagsFull`] is met on older images only.
///
/// ```
/// use cix::{Record, Refusal};
///
/// let mut space = vec![0; cix::space_bytes(170)];
/// let call = Record { level: 1, second: 100, phone: 9, minutes: 0 };
/// for n in 0..136 {
///     assert_eq!(cix::put(&mut space, n, call), Ok(1)); // 120 are unused now, and 15 buildings lack 8 each
/// }
/// assert_eq!(cix::put(&mut space, 136, call), Err(Refusal::BuildingFull));
/// assert_eq!(cix::put_pit(&mut space, 136, call), Err(Refusal::BuildingFull));
/// assert_eq!(cix::put(&mut space, 0, Record { second: 101, ..call }), Ok(2));
/// for n in 0..8 {
///     assert_eq!(cix::put(&mut space, 5 << 28 | n, call), Ok(1));
/// }
/// assert_eq!(cix::put(&mut space, 5 << 28 | 8, call), Err(Refusal::BuildingFull));
/// cix::drop_tag(&mut space, 0)?;
/// assert_eq!(cix::put(&mut space, 5 << 28 | 8, call), Ok(1));
/// assert_eq!(Refusal::BuildingFull.number(), 19);
/// assert_eq!(Refusal::BuildingFull.to_string(), "the unused tags are kept for buildings that have fewer than 8");
/// # Ok::<(), Refusal>(())
/// ```
pub fn put(space: &mut [u8], tag: u32, r: Record) -> Result<u32> {
    counted(unsafe {
        ffi::cix_put(space.as_mut_ptr(), space.len(), tag, r.level, r.second, r.phone, r.minutes)
    })
}

/// Puts a record from the pit: as [`put`], but only to a list of fewer than 64 records, whoever put
/// these. With 64 or more it is [`Refusal::PitFull`], for a call that is not [`Refusal::Listed`].
///
/// ```
/// use cix::{Record, Refusal};
///
/// let mut space = vec![0; cix::space_bytes(12)];
/// let call = |second| Record { level: 1, second, phone: 9, minutes: 0 };
/// for n in 1..=64 {
///     assert_eq!(cix::put_pit(&mut space, 7, call(n)), Ok(n));
/// }
/// assert_eq!(cix::put_pit(&mut space, 7, call(65)), Err(Refusal::PitFull));
/// assert_eq!(cix::put_pit(&mut space, 7, call(64)), Err(Refusal::Listed));
/// for n in 65..=70 {
///     assert_eq!(cix::put(&mut space, 7, call(n)), Ok(n)); // the desk goes on
/// }
/// for n in 1..=7 {
///     assert_eq!(cix::put_pit(&mut space, 7, call(0)), Err(Refusal::PitFull));
///     cix::delete(&mut space, 7, call(n))?;
/// }
/// assert_eq!(cix::put_pit(&mut space, 7, call(0)), Ok(64)); // under 64 again
/// assert_eq!(Refusal::PitFull.number(), 17);
/// assert_eq!(Refusal::PitFull.to_string(), "the list has 64 calls or more");
/// # Ok::<(), Refusal>(())
/// ```
pub fn put_pit(space: &mut [u8], tag: u32, r: Record) -> Result<u32> {
    counted(unsafe {
        ffi::cix_put_pit(
            space.as_mut_ptr(),
            space.len(),
            tag,
            r.level,
            r.second,
            r.phone,
            r.minutes,
        )
    })
}

/// Deletes the record with r's level, second and phone. Answers the list's count afterwards.
pub fn delete(space: &mut [u8], tag: u32, r: Record) -> Result<u32> {
    counted(unsafe {
        ffi::cix_delete(space.as_mut_ptr(), space.len(), tag, r.level, r.second, r.phone)
    })
}

/// Gives the record with r's level, second and phone r's minutes. Answers the list's count.
pub fn set_minutes(space: &mut [u8], tag: u32, r: Record) -> Result<u32> {
    counted(unsafe {
        ffi::cix_set_minutes(
            space.as_mut_ptr(),
            space.len(),
            tag,
            r.level,
            r.second,
            r.phone,
            r.minutes,
        )
    })
}

/// Drops a tag with its list. Answers 0.
pub fn drop_tag(space: &mut [u8], tag: u32) -> Result<u32> {
    counted(unsafe { ffi::cix_drop_tag(space.as_mut_ptr(), space.len(), tag) })
}

/// Makes the workspace the image's index, its step too. However early it is cut, the index found afterwards is the
/// old one or the new one, after [`recover`] if a read says [`Refusal::Unrecovered`].
pub fn commit(image: &mut [u8], space: &[u8], stores: u32) -> Result<Stored> {
    stored(unsafe {
        ffi::cix_commit(image.as_mut_ptr(), image.len(), space.as_ptr(), space.len(), stores)
    })
}

/// Finishes a commit that was cut after its mark was stored, and clears a mark that a cut store left
/// neither 0 nor 165; stores nothing where the mark is 0. It may be cut itself.
///
/// ```
/// use cix::{Refusal, Step, Stored};
///
/// let mut image = vec![0; cix::image_bytes(28, 2)];
/// let mut space = vec![0; cix::space_bytes(2)];
/// cix::format(&mut image, 28, 2, Step::Fine, cix::ALL)?;
/// image[10] = 9; // the mark, caught halfway
/// assert_eq!(cix::begin(&image, &mut space), Err(Refusal::Unrecovered));
/// assert_eq!(cix::recover(&mut image, cix::ALL), Ok(Stored::Done(1)));
/// assert_eq!(cix::begin(&image, &mut space), Ok(()));
/// # Ok::<(), Refusal>(())
/// ```
pub fn recover(image: &mut [u8], stores: u32) -> Result<Stored> {
    stored(unsafe { ffi::cix_recover(image.as_mut_ptr(), image.len(), stores) })
}

/// Counts a tag's list; an unknown tag has 0.
pub fn count_image(image: &[u8], tag: u32) -> Result<u32> {
    counted(unsafe { ffi::cix_count_image(image.as_ptr(), image.len(), tag) })
}

/// Counts a tag's list in a workspace.
pub fn count_space(space: &[u8], tag: u32) -> Result<u32> {
    counted(unsafe { ffi::cix_count_space(space.as_ptr(), space.len(), tag) })
}

/// Counts the records of a tag's list before r's level, second and phone, whether that call is listed
/// or not; an unknown tag has 0. Of a listed call that is its place in the list, 0 for the first, and
/// of another the place at which [`put`] would list it. r's minutes are not looked at.
///
/// ```
/// use cix::{Record, Step};
///
/// let mut image = vec![0; cix::image_bytes(28, 2)];
/// let mut space = vec![0; cix::space_bytes(2)];
/// cix::format(&mut image, 28, 2, Step::Fine, cix::ALL)?;
/// cix::begin(&image, &mut space)?;
/// let call = |second| Record { level: 1, second, phone: 9, minutes: 0 };
/// cix::put(&mut space, 7, call(100))?;
/// cix::put(&mut space, 7, call(300))?;
/// assert_eq!(cix::rank_space(&space, 7, call(200)), Ok(1)); // foretold: the second in line
/// cix::put(&mut space, 7, call(200))?;
/// cix::commit(&mut image, &space, cix::ALL)?;
/// assert_eq!(cix::rank_image(&image, 7, call(200)), Ok(1));
/// assert_eq!(cix::rank_image(&image, 7, call(300)), Ok(2)); // now the third in line
/// assert_eq!(cix::rank_image(&image, 9, call(300)), Ok(0));
/// # Ok::<(), cix::Refusal>(())
/// ```
pub fn rank_image(image: &[u8], tag: u32, r: Record) -> Result<u32> {
    counted(unsafe {
        ffi::cix_rank_image(image.as_ptr(), image.len(), tag, r.level, r.second, r.phone)
    })
}

/// The same in a workspace.
pub fn rank_space(space: &[u8], tag: u32, r: Record) -> Result<u32> {
    counted(unsafe {
        ffi::cix_rank_space(space.as_ptr(), space.len(), tag, r.level, r.second, r.phone)
    })
}

/// The part of the image that holds a tag's records: empty for an unknown tag, and where
/// [`count_image`] is refused.
pub fn show_image(image: &[u8], tag: u32) -> &[u8] {
    shown(image, unsafe { ffi::cix_show_image(image.as_ptr(), image.len(), tag) })
}

/// The part of a workspace that holds a tag's records.
pub fn show_space(space: &[u8], tag: u32) -> &[u8] {
    shown(space, unsafe { ffi::cix_show_space(space.as_ptr(), space.len(), tag) })
}

/// What is made of two lists. Where both have a call, the record is the first list's.
#[derive(Clone, Copy, Debug, PartialEq, Eq)]
pub enum Merge {
    Both,
    Either,
    /// The first list's calls that the second has not.
    Without,
}

/// Writes a merge of two tags' lists to an output. Answers the number of records; bytes behind them
/// stay.
pub fn merge_image(image: &[u8], m: Merge, first: u32, second: u32, out: &mut [u8]) -> Result<u32> {
    let call = match m {
        Merge::Both => ffi::cix_both_image,
        Merge::Either => ffi::cix_either_image,
        Merge::Without => ffi::cix_without_image,
    };
    counted(unsafe {
        call(image.as_ptr(), image.len(), first, second, out.as_mut_ptr(), out.len())
    })
}

/// The same of lists in a workspace.
pub fn merge_space(space: &[u8], m: Merge, first: u32, second: u32, out: &mut [u8]) -> Result<u32> {
    let call = match m {
        Merge::Both => ffi::cix_both_space,
        Merge::Either => ffi::cix_either_space,
        Merge::Without => ffi::cix_without_space,
    };
    counted(unsafe {
        call(space.as_ptr(), space.len(), first, second, out.as_mut_ptr(), out.len())
    })
}
