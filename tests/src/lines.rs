//! The program `calls` in plain Rust, over the model: lines of text in, their answers out.
use crate::model::{self, Counted, Of, Rec};
use std::str::FromStr;

const ENTRIES: u32 = 90;
const PAGES: u32 = 64;
const STEP: u32 = 0;

/// All answers to an input. A line ends at a newline byte, not counted, or at the input's end.
pub fn answers(input: &[u8]) -> Vec<u8> {
    let mut image = vec![0; cix::image_bytes(ENTRIES, PAGES)];
    model::format(&image, ENTRIES, PAGES, STEP).unwrap().make(&mut image, u32::MAX);
    let mut text = String::new();
    for line in input.split_inclusive(|&b| b == b'\n') {
        let line = line.strip_suffix(b"\n").unwrap_or(line);
        text += &answer(&mut image, line).unwrap_or("bad\n".into());
    }
    text.into_bytes()
}

/// The answer to a line; none to a bad one.
fn answer(image: &mut [u8], line: &[u8]) -> Option<String> {
    if line.len() > 80 {
        return None;
    }
    let fields: Vec<&str> = std::str::from_utf8(line).ok()?.split(',').collect();
    let [word, tag, level, second, phone, minutes] = fields[..] else { return None };
    let tag = number(tag)?;
    let r = record(number(level)?, number(second)?, number(phone)?, number(minutes)?);
    let done = match word {
        "put" => edit(image, |space| model::put(space, tag, r)),
        "del" => edit(image, |space| model::delete(space, tag, r)),
        "set" => edit(image, |space| model::set_minutes(space, tag, r)),
        "drop" => edit(image, |space| model::drop_tag(space, tag)),
        "list" => list(image, tag),
        _ => return None,
    };
    Some(done.unwrap_or_else(|refusal| format!("no,{refusal}\n")))
}

/// A number has one spelling, the one that it is printed with, and its type is its range.
fn number<T: FromStr + ToString>(field: &str) -> Option<T> {
    field.parse().ok().filter(|n: &T| n.to_string() == field)
}

fn record(level: u8, second: u32, phone: u16, minutes: u8) -> Rec {
    let (s, p) = (second.to_be_bytes(), phone.to_be_bytes());
    [level, s[0], s[1], s[2], s[3], p[0], p[1], minutes]
}

/// Begin, the edit, commit.
fn edit(image: &mut [u8], f: impl Fn(&mut [u8]) -> Counted) -> Result<String, u8> {
    let mut space = vec![0; cix::space_bytes(PAGES)];
    model::begin(image, &mut space)?;
    f(&mut space)?;
    model::commit(image, &space)?.make(image, u32::MAX);
    Ok("ok\n".into())
}

fn list(image: &[u8], tag: u32) -> Result<String, u8> {
    let count = model::count(Of::Image, image, tag)?;
    let (at, bytes) = model::show(Of::Image, image, tag);
    let mut text = format!("list,{tag},{count}\n");
    for r in image[at..at + bytes].chunks(8) {
        text += &printed(r);
        text.push('\n');
    }
    Ok(text)
}

/// A record's level, second, phone, minutes.
pub fn printed(r: &[u8]) -> String {
    let second = u32::from_be_bytes(r[1..5].try_into().unwrap());
    let phone = u16::from_be_bytes(r[5..7].try_into().unwrap());
    format!("{},{second},{phone},{}", r[0], r[7])
}
