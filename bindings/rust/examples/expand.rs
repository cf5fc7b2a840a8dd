//! A macro expander in ten lines: `cargo run --example expand FILE`.
use filgordd::{Options, Reply, Scope, Session};

fn main() -> Result<(), Box<dyn std::error::Error>> {
    let text = std::fs::read_to_string(std::env::args().nth(1).ok_or("usage: expand FILE")?)?;
    let mut session = Session::with_options(&text, Options { scope: Scope::Rust, ..Options::default() })?;
    match session.expand()? {
        Reply::Read(expansion) => print!("{}", expansion.printed()),
        Reply::Unread(fault) => eprintln!("{} at {:?}", fault.kind, fault.range),
    }
    Ok(())
}
