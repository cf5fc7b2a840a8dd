//! A lint: finds the rules of `macro_rules!` that no call of a file needs. `cargo run --example unused_rules FILE`.
//!
//! A rule is not needed where the file gives the same without it: the same tokens of the same origins, and the same faults.
//! So the lint edits a session: it makes a rule fit no call, looks at the expansion, and undoes that. Only calls of
//! that macro are expanded anew.
use filgordd::{Edition, Error, Fault, Reply, Session};
use std::{env, fs, process};

// In front of a matcher, it fits no call that has no such name.
const NEVER: &str = "no_call_has_this_name ";

type Range = std::ops::Range<usize>;

// The tokens of a text. In braces it is one piece, so that nothing in it is a definition and nothing is expanded.
fn tokens(text: &str) -> Result<Vec<Range>, Error> {
    let mut session = Session::new(&format!("{{{text}}}"), Edition::Edition2024, 0)?;
    let Reply::Read(expansion) = session.expand()? else { return Ok(Vec::new()) };
    let within = 1..text.len() + 1;
    let found = expansion.tokens()?.map(|it| it.origin).filter(|it| within.contains(&it.start));
    Ok(found.map(|it| it.start - 1..it.end - 1).collect())
}

// Behind the group that begins at this token.
fn behind_group(words: &[&str], at: usize) -> usize {
    let mut depth = 0;
    for (i, word) in words.iter().enumerate().skip(at) {
        match *word {
            "(" | "[" | "{" => depth += 1,
            ")" | "]" | "}" => depth -= 1,
            _ => {}
        }
        if depth == 0 {
            return i + 1;
        }
    }
    words.len()
}

// Where the matchers of the definitions are, each behind its bracket, with the names of the macros.
fn matchers<'a>(text: &'a str, tokens: &[Range]) -> Vec<(&'a str, usize)> {
    let words: Vec<&str> = tokens.iter().map(|it| &text[it.clone()]).collect();
    let mut found = Vec::new();
    for i in 0..words.len().saturating_sub(3) {
        if words[i] != "macro_rules" || words[i + 1] != "!" {
            continue;
        }
        let (mut at, end) = (i + 4, behind_group(&words, i + 3) - 1);
        while at < end {
            found.push((words[i + 2], tokens[at].end));
            // A matcher, `=>` and a transcriber, and perhaps a `;`.
            at = behind_group(&words, behind_group(&words, at) + 2);
            at += usize::from(words.get(at) == Some(&";"));
        }
    }
    found
}

// A place as it is without what was put in.
fn moved(range: Range, at: usize) -> Range {
    let moved = |it: usize| if it > at { it - NEVER.len() } else { it };
    moved(range.start)..moved(range.end)
}

// All that a text gives, with what was put in at this offset taken out of the places.
fn given(session: &mut Session, at: usize) -> Result<(String, Vec<Range>, Vec<Fault>), Error> {
    Ok(match session.expand()? {
        Reply::Read(it) => (
            it.printed().to_string(),
            it.tokens()?.map(|token| moved(token.origin, at)).collect(),
            it.faults().map(|fault| Fault { range: moved(fault.range, at), ..fault }).collect(),
        ),
        Reply::Unread(fault) => (fault.kind.to_string(), vec![fault.range], Vec::new()),
    })
}

fn main() -> Result<(), Box<dyn std::error::Error>> {
    let file = env::args().nth(1).ok_or("usage: unused_rules FILE")?;
    let text = fs::read_to_string(&file)?;
    let mut session = Session::new(&text, Edition::Edition2024, 128)?;
    let whole = given(&mut session, text.len())?;
    let mut found = 0;
    for (name, at) in matchers(&text, &tokens(&text)?) {
        session.edit(at..at, NEVER)?;
        let without = given(&mut session, at)?;
        session.edit(at..at + NEVER.len(), "")?;
        if without == whole {
            let place = session.position(at - 1)?;
            println!("{file}:{}:{}: no call needs this rule of {name}", place.line, place.column);
            found += 1;
        }
    }
    process::exit(i32::from(found > 0))
}
