//! Expands a file each time that it changes, and says what was expanded anew:
//! `cargo run --example watch FILE`.
use filgordd::{Edition, Reply, Session};
use std::{env, error::Error, fs, thread, time::Duration};

// The bytes of `old` that differ in `new`, and what stands there instead.
fn change<'a>(old: &str, new: &'a str) -> (std::ops::Range<usize>, &'a str) {
    let pairs = old.char_indices().zip(new.chars());
    let front = pairs.take_while(|((_, a), b)| a == b).last();
    let front = front.map_or(0, |((at, a), _)| at + a.len_utf8());
    let pairs = old[front..].chars().rev().zip(new[front..].chars().rev());
    let back: usize = pairs.take_while(|(a, b)| a == b).map(|(a, _)| a.len_utf8()).sum();
    (front..old.len() - back, &new[front..new.len() - back])
}

fn show(session: &mut Session) -> Result<(), filgordd::Error> {
    match session.expand()? {
        Reply::Read(expansion) => {
            print!("{}", expansion.printed());
            for fault in expansion.faults() {
                eprintln!("{:?} at {:?}", fault.kind, fault.range);
            }
            eprintln!("expanded: {}", expansion.expanded());
        }
        Reply::Unread(fault) => eprintln!("{:?} at {:?}", fault.kind, fault.range),
    }
    Ok(())
}

fn main() -> Result<(), Box<dyn Error>> {
    let file = env::args().nth(1).ok_or("usage: watch FILE")?;
    let mut text = fs::read_to_string(&file)?;
    let mut session = Session::new(&text, Edition::Edition2024, 128)?;
    show(&mut session)?;
    loop {
        thread::sleep(Duration::from_millis(200));
        let now = fs::read_to_string(&file)?;
        if now != text {
            let (range, replacement) = change(&text, &now);
            session.edit(range, replacement)?;
            text = now;
            show(&mut session)?;
        }
    }
}
