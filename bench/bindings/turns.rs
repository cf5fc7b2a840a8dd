//! The program bench/bindings/turns.c through the crate for Rust: the same input, the same calls, the
//! same output. Each answer copies the printed text out, too; its tokens are counted at the end.
use filgordd::{Edition, Error, Grammar, Reply, Session};
use std::io::Read;

fn expanded(session: &mut Session) -> Result<usize, Error> {
    match session.expand()? {
        Reply::Read(found) => {
            std::hint::black_box(found.printed().len());
            Ok(found.expanded())
        }
        Reply::Unread(_) => Ok(0),
    }
}

fn tokens(session: &mut Session) -> Result<usize, Error> {
    match session.expand()? {
        Reply::Read(found) => Ok(found.tokens()?.len()),
        Reply::Unread(_) => Ok(0),
    }
}

fn open(text: &str) -> Result<Session, Error> {
    Session::with_grammar(text, Grammar::Small, Edition::Edition2024, 128)
}

fn main() -> Result<(), Box<dyn std::error::Error>> {
    let mut input = String::new();
    std::io::stdin().read_to_string(&mut input)?;
    let (first, text) = input.split_once('\n').ok_or("no first line")?;
    let words: Vec<&str> = first.split(' ').collect();
    let [what, turns, at, word] = words[..] else { return Err("four words".into()) };
    let (turns, at): (usize, usize) = (turns.parse()?, at.parse()?);
    let word = if word == "+" { "\n" } else { word };
    let mut session = open(text)?;
    let mut last = expanded(&mut session)?;
    for turn in 0..turns {
        if what == "s" {
            last = expanded(&mut open(text)?)?;
        } else {
            let (end, new) = if turn % 2 == 1 { (at + word.len(), "") } else { (at, word) };
            session.edit(at..end, new)?;
            last = expanded(&mut session)?;
        }
    }
    println!("{} {last}", tokens(&mut session)?);
    Ok(())
}
