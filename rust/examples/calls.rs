//! Puts three calls on record, has the power fail in a commit, recovers, and lists the calls.
use cix::{Record, Refusal, Step, Stored};

fn main() -> Result<(), Refusal> {
    let (entries, pages) = (90, 64);
    let mut image = vec![0; cix::image_bytes(entries, pages)];
    let mut space = vec![0; cix::space_bytes(pages)];
    cix::format(&mut image, entries, pages, Step::Fine, cix::ALL)?;

    for (second, phone) in [(100, 9), (100, 3), (50, 9)] {
        cix::begin(&image, &mut space)?;
        let call = Record { level: 1, second, phone, minutes: 0 };
        cix::put(&mut space, 7, call)?;
        if let Stored::Cut(n) = cix::commit(&mut image, &space, 300)? {
            println!("cut after {n} stores");
            if let Err(r) = cix::count_image(&image, 7) {
                println!("refused, {}: {r}", r.number());
            }
            cix::recover(&mut image, cix::ALL)?;
        }
    }
    for r in cix::records(cix::show_image(&image, 7)) {
        println!("level {}, second {}, phone {}", r.level, r.second, r.phone);
    }
    Ok(())
}
