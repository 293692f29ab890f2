//! Images with a byte or two changed, and what another model of the specification answered on them:
//! `tests/spoiled.txt`. First the edits of the image, then the image, then a line for each change.
use cix::{Record, Refusal, Step, Stored, ALL};

fn counted(r: Result<u32, Refusal>) -> String {
    r.map_or_else(refused, |n| format!("count {n}"))
}

fn stored(r: Result<Stored, Refusal>) -> String {
    r.map_or_else(refused, |s| match s {
        Stored::Done(n) => format!("done {n}"),
        Stored::Cut(n) => format!("cut {n}"),
    })
}

fn refused(r: Refusal) -> String {
    format!("refused {}", r.number())
}

/// The five calls, each on the changed image; `home` is the unchanged one.
fn answers(image: &[u8], home: &[u8]) -> String {
    let begun = cix::begin(image, &mut home.to_vec()).map_or_else(refused, |_| "done".into());
    let commit = stored(cix::commit(&mut image.to_vec(), home, ALL));
    let recover = stored(cix::recover(&mut image.to_vec(), ALL));
    let count = counted(cix::count_image(image, 7));
    let space = counted(cix::count_space(&image[image.len() - home.len()..], 7));
    format!("count {count} | begin {begun} | commit {commit} | recover {recover} | count of its home as a workspace {space}")
}

/// Puts what the first lines say and commits it.
fn committed<'a>(edits: impl Iterator<Item = &'a str>) -> (Vec<u8>, Vec<u8>) {
    let (mut image, mut space) = (vec![0; cix::image_bytes(28, 2)], vec![0; cix::space_bytes(2)]);
    cix::format(&mut image, 28, 2, Step::Fine, ALL).unwrap();
    cix::begin(&image, &mut space).unwrap();
    for line in edits {
        let n: Vec<u32> = line.split(' ').skip(1).map(|n| n.parse().unwrap()).collect();
        let r = Record { level: n[1] as u8, second: n[2], phone: n[3] as u16, minutes: n[4] as u8 };
        cix::put(&mut space, n[0], r).unwrap();
    }
    cix::commit(&mut image, &space, ALL).unwrap();
    (image, space)
}

/// Compares all lines, and answers how many there are.
pub fn compare() -> usize {
    let text = include_str!("../spoiled.txt");
    let (image, home) = committed(text.lines().take_while(|l| l.starts_with("put ")));
    let hex: String = image.iter().map(|b| format!("{b:02x}")).collect();
    assert!(text.lines().any(|l| l.strip_prefix("image ") == Some(&hex)), "another image");
    let mut lines = 0;
    for (pokes, told) in text.lines().filter_map(|l| l.split_once(" -> ")) {
        let mut image = image.clone();
        for (at, value) in pokes.split(' ').map(|p| p.split_once('=').unwrap()) {
            image[at.parse::<usize>().unwrap()] = value.parse().unwrap();
        }
        assert_eq!(answers(&image, &home), told, "{pokes}");
        lines += 1;
    }
    lines
}
