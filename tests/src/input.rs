//! A random input for the program `calls`, six of its buffers long and a little more.
use crate::lines::printed;
use crate::random::Random;

/// The bytes that the program reads at once.
const BUFFER: usize = 65_536;

/// Its lines meet the buffers' ends in every way, and the last one, a list, has no newline.
pub fn random(rng: &mut Random) -> Vec<u8> {
    let mut text = Vec::new();
    // A newline as a buffer's last byte, one as a buffer's first byte, a line across a buffer's end.
    meet(rng, &mut text, BUFFER, 0);
    meet(rng, &mut text, 2 * BUFFER, 1);
    let behind = 2 + rng.below(12) as usize;
    meet(rng, &mut text, 3 * BUFFER, behind);
    // A line longer than a buffer: a command, a buffer without a newline, a command.
    meet(rng, &mut text, 4 * BUFFER, 1);
    text.pop();
    text.resize(5 * BUFFER, b'x');
    text.extend(b"drop,0,0,0,0,0\n");
    meet(rng, &mut text, 6 * BUFFER, 6);
    fill(rng, &mut text, 6 * BUFFER + 1000);
    text.extend(b"list,0,0,0,0,0");
    text
}

/// Lines up to byte `end`.
fn fill(rng: &mut Random, text: &mut Vec<u8>, end: usize) {
    while text.len() + 100 < end {
        text.extend(line(rng));
        text.push(b'\n');
    }
    text.resize(end - 1, b'x');
    text.push(b'\n');
}

/// Lines, then a command of which so many bytes, its newline the last, stand behind the buffer's end.
fn meet(rng: &mut Random, text: &mut Vec<u8>, end: usize, behind: usize) {
    let command = command(rng);
    fill(rng, text, end + behind - command.len() - 1);
    text.extend(command);
    text.push(b'\n');
}

fn line(rng: &mut Random) -> Vec<u8> {
    let mut line = command(rng);
    match rng.below(100) {
        0..=9 => wrong_field(rng, &line),
        10..=14 => {
            rng.spoil(&mut line);
            line
        }
        15..=17 => [line, vec![b'x'; 82]].concat()[..79 + rng.below(4) as usize].to_vec(),
        18..=20 => [vec![b'x'; 79 + rng.below(4) as usize - line.len()], line].concat(),
        21 => Vec::new(),
        _ => line,
    }
}

/// A right line. Most are about tag 0, whose list grows to hundreds of records.
fn command(rng: &mut Random) -> Vec<u8> {
    let word = match rng.below(200) {
        0 => "drop",
        1..=139 => "put",
        140..=163 => "del",
        164..=185 => "set",
        _ => "list",
    };
    let tag = if word == "drop" || rng.one_in(4) { rng.tag(5) } else { 0 };
    let mut r = rng.record(60);
    if rng.one_in(20) {
        r[1..5].fill(255);
    }
    format!("{word},{tag},{}", printed(&r)).into_bytes()
}

#[rustfmt::skip]
const WORDS: [&[u8]; 10] = [
    b"", b"PUT", b"pu", b"puts", b" put", b"put ", b"\"put\"", b"\0put", b"p\xf5t", b"put,put",
];
#[rustfmt::skip]
const NUMBERS: [&[u8]; 22] = [
    b"", b"00", b"07", b"+7", b"-7", b"-0", b" 7", b"7 ", b"7\t", b"7\r", b"7\0", b"\xb7", b"x", b"0x7", b"7.0", b"7e0",
    b"7,7", b"256", b"65536", b"4294967296", b"18446744073709551616", b"18446744073709551623",
];

/// The line with a field taken out, or one that is wrong in it, mostly.
fn wrong_field(rng: &mut Random, line: &[u8]) -> Vec<u8> {
    let mut fields: Vec<&[u8]> = line.split(|&b| b == b',').collect();
    let i = rng.below(6) as usize;
    if rng.one_in(8) {
        fields.remove(i);
    } else {
        let wrong: &[&[u8]] = if i == 0 { &WORDS } else { &NUMBERS };
        fields[i] = wrong[rng.below(wrong.len() as u32) as usize];
    }
    fields.join(&b',')
}
