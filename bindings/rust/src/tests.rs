//! The row of the README, every code that a text of this size can bring about, sessions on threads, and
//! random edits of one session against fresh sessions.
use super::*;

const TEXT: &str = "macro_rules! p { ($a:ident $b:tt) => { $b $a } } p!{ x y }";

fn open(text: &str) -> Session {
    Session::new(text, Edition::Edition2024, 128).expect("it is opened")
}

fn read(session: &mut Session) -> Expansion<'_> {
    match session.expand() {
        Ok(Reply::Read(expansion)) => expansion,
        other => panic!("{other:?}"),
    }
}

#[test]
fn the_row() {
    let mut session = open(TEXT);
    let expansion = read(&mut session);
    assert_eq!((expansion.printed(), expansion.expanded()), ("y x\n", 1));
    let tokens: Vec<Token> = expansion.tokens().expect("it is short").collect();
    assert_eq!(tokens, [Token { range: 0..1, origin: 55..56 }, Token { range: 2..3, origin: 53..54 }]);
    assert_eq!(expansion.faults().len(), 0);

    session.edit(0..0, "// a\n").expect("it is edited");
    assert_eq!(read(&mut session).expanded(), 0);

    session.edit(58..59, "1").expect("it is edited");
    let faults: Vec<Fault> = read(&mut session).faults().collect();
    assert_eq!(faults, [Fault { kind: FaultKind::CannotExpand, range: 54..55 }]);
}

#[test]
fn grammars() {
    let text = "macro_rules! e { ($a:expr) => { $a } } e!{ |x| x + 1 }";
    assert_eq!(read(&mut open(text)).faults().len(), 0);
    for (grammar, faults) in [(Grammar::Small, 1), (Grammar::default(), 0)] {
        let session = Session::with_grammar(text, grammar, Edition::Edition2024, 128);
        assert_eq!(read(&mut session.expect("it is opened")).faults().len(), faults);
    }
}

#[test]
fn scopes() {
    let text = "fn f() { macro_rules! m { () => { 1 } } m!{} }";
    assert_eq!(read(&mut open(text)).faults().len(), 1);
    for (scope, faults) in [(Scope::Top, 1), (Scope::Rust, 0)] {
        let session = Session::with_options(text, Options { scope, ..Options::default() });
        assert_eq!(read(&mut session.expect("it is opened")).faults().len(), faults);
    }
}

#[test]
fn limits() {
    let text = "macro_rules! w { () => { w!{} w!{} } } macro_rules! b { () => { c!{} } } macro_rules! c { () => { 1 2 } } b!{} w!{}";
    for (calls, tokens, faults) in [(2, 5, 1), (1, 5, 2), (2, 4, 2), (9, 0, 1)] {
        let (most_calls, most_tokens) = (NonZeroUsize::new(calls), NonZeroUsize::new(tokens));
        let options = Options { most_calls, most_tokens, ..Options::default() };
        let mut session = Session::with_options(text, options).expect("it is opened");
        let given = read(&mut session);
        let kinds: Vec<_> = given.faults().map(|it| it.kind).collect();
        assert_eq!(kinds, vec![FaultKind::TooLarge; faults]);
    }
}

fn open_cfg(text: &str, cfg: Option<&[&str]>) -> Result<Session, Error> {
    Session::with_options(text, Options { scope: Scope::Rust, cfg, ..Options::default() })
}

#[test]
fn conditions() {
    let text = "#[cfg(unix)] macro_rules! m { () => { 1 } } #[cfg(not(unix))] macro_rules! m { () => { 2 } } \
        #[cfg(a = \"b\")] fn f() {} m!{}";
    let item = "# [ cfg ( a = \"b\" ) ] fn f ( ) { }\n";
    let rows: [(Option<&[&str]>, String); 4] = [
        (None, format!("{item}2\n")),
        (Some(&[]), "2\n".into()),
        (Some(&["unix"]), "1\n".into()),
        (Some(&["unix", " a = r\"b\" ", "unix"]), format!("{item}1\n")),
    ];
    for (cfg, wanted) in rows {
        assert_eq!(read(&mut open_cfg(text, cfg).expect("it is opened")).printed(), wanted);
    }
    for wrong in ["", "a b", "a=b", "a=1", "_", "fn", "a(", "--cfg"] {
        assert_eq!(open_cfg(text, Some(&["unix", wrong])).err(), Some(Error::Cfg));
    }
    let mut session = open_cfg("p!{}", Some(&["test"])).expect("it is opened");
    let source = "macro_rules! p { () => { 3 } } #[cfg(not(test))] macro_rules! p { () => { 4 } }";
    assert_eq!(session.source(1, None, source), Ok(Source::Read(2)));
    session.prelude(&[Pick::All(1)]).expect("there is memory");
    assert_eq!(read(&mut session).printed(), "3\n");
}

#[test]
fn refusals() {
    let mut session = open("é;");
    assert_eq!([0, 1, 2, 3, 4].map(|at| session.is_boundary(at)), [true, false, true, true, false]);
    assert!(session.fits(0..3, 0xffff_ffff));
    assert!(!session.fits(0..2, 0xffff_ffff));
    assert_eq!(session.edit(1..2, "a"), Err(Error::Boundary));
    assert_eq!(session.edit(0..4, "a"), Err(Error::Range));
    assert_eq!(session.text(), "é;");
    session.edit(3..3, "(").expect("it is edited");
    let Ok(Reply::Unread(fault)) = session.expand() else { panic!("it is read") };
    assert_eq!(fault, ReadFault { kind: ReadFaultKind::GroupLeftOpen, range: 3..4 });
}

#[test]
fn sources() {
    let mut session = open("a!(1); d!(2); e!();");
    let std = Home { root: "std", edition: Edition::Edition2021 };
    let text = "macro_rules! a { ($x:tt) => { $crate::b!($x) } } mod m { macro_rules! c { () => {} } } \
        #[rustc_builtin_macro] macro_rules! e { () => {} } macro_rules! b { ($x:tt) => { $crate::f $x } }";
    assert_eq!(session.source(0, Some(std), text), Err(Error::Source));
    assert_eq!(session.source(1, Some(Home { root: "crate", ..std }), text), Err(Error::Root));
    assert_eq!(session.source(1, Some(Home { root: "", ..std }), text), Err(Error::Root));
    assert_eq!(session.source(1, Some(std), text), Ok(Source::Read(4)));
    let fault = ReadFault { kind: ReadFaultKind::GroupLeftOpen, range: 2..3 };
    assert_eq!(session.source(1, Some(std), "a ("), Ok(Source::Unread(fault)));
    assert_eq!(session.source(2, None, "macro_rules! d { ($x:tt) => { $x + } }"), Ok(Source::Read(1)));
    assert_eq!(session.prelude(&[Pick::All(3)]), Err(Error::Source));
    assert_eq!(session.prelude(&[Pick::All(1), Pick::One(2, 1)]), Err(Error::Index));
    assert_eq!(session.prelude(&[Pick::All(1), Pick::One(2, 0)]), Ok(()));
    let mut session = std::thread::spawn(move || session).join().expect("it passes");
    let expansion = read(&mut session);
    assert_eq!(expansion.printed(), "std :: f 1 ;\n2 + ;\ne ! ( ) ;\n");
    assert_eq!(expansion.sources(), [1, 1, 1, 1, 0, 0, 0, 2, 0, 0, 0, 0, 0, 0]);
    let origins: Vec<&str> = (expansion.tokens().expect("it is short").zip(expansion.sources()))
        .filter_map(|(token, source)| if source == 1 { text.get(token.origin) } else { None })
        .collect();
    assert_eq!(origins, ["$", ":", ":", "f"]);
    session.prelude(&[]).expect("there is memory");
    assert_eq!(read(&mut session).expanded(), 2);
    assert_eq!(read(&mut session).sources(), [0; 17]);
}

#[test]
fn codes() {
    let (mut fault, mut counts) = (sys::Fault::default(), sys::Counts::default());
    let session = open("a;");
    let (at, mut none) = (session.at(), 0);
    // SAFETY: each pointer is to as much as is said.
    unsafe {
        let options = sys::Options { edition: 2024, grammar: 0, scope: 0, depth: 0, calls: 0, tokens: 0 };
        assert_eq!(sys::filgordd_raw_open_with(at, "a".as_ptr(), 1, &sys::Options { edition: 2020, ..options }), 8);
        assert_eq!(sys::filgordd_raw_open_with(at, "a".as_ptr(), 1, &sys::Options { grammar: 2, ..options }), 9);
        assert_eq!(sys::filgordd_raw_open_with(at, "a".as_ptr(), 1, &sys::Options { scope: 2, ..options }), 18);
        assert_eq!(sys::filgordd_raw_open_with(at, b"\xff".as_ptr(), 1, &options), 6);
        let words = [sys::Word { bytes: b"\xff".as_ptr(), len: 1 }, sys::Word { bytes: "a=".as_ptr(), len: 2 }];
        assert_eq!(sys::filgordd_raw_open_cfg(at, "a".as_ptr(), 1, &options, words.as_ptr(), 2), 6);
        assert_eq!(sys::filgordd_raw_open_cfg(at, "a".as_ptr(), 1, &options, &words[1], 1), 19);
        assert_eq!(session.text(), "a;");
        assert_eq!(sys::filgordd_raw_fits(at, 0, 0, usize::MAX), 7);
        assert_eq!(sys::filgordd_raw_edit(at, 0, 0, b"\xff".as_ptr(), 1), 6);
        assert_eq!(sys::filgordd_raw_counts(at, &mut counts), 12);
        assert_eq!(sys::filgordd_raw_expand(at), 0);
        assert_eq!(sys::filgordd_raw_reading_fault(at, &mut fault), 12);
        assert_eq!(sys::filgordd_raw_fault(at, 0, &mut fault), 13);
        assert_eq!(sys::filgordd_raw_printed(at, &mut none, 1), 14);
        sys::filgordd_raw_close(at);
        sys::filgordd_raw_close(at);
        assert_eq!(sys::filgordd_raw_expand(at), 5);
        assert_eq!(sys::filgordd_raw_edit(at, 0, 0, b"".as_ptr(), 0), 5);
    }
}

#[test]
fn words_and_positions() {
    assert_eq!(version(), env!("CARGO_PKG_VERSION"));
    assert_eq!(Error::Memory.to_string(), "out of memory");
    assert_eq!(format!("{:>14}", Error::Memory), " out of memory");
    assert_eq!(FaultKind::TooLarge.to_string(), "the expansion of this call is too large");
    assert_eq!(ReadFaultKind::GroupLeftOpen.to_string(), "group left open");
    let session = open("a;\né b\n");
    let rows = [(1, 1), (1, 2), (1, 3), (2, 1), (2, 2), (2, 3), (2, 4), (2, 5), (3, 1)];
    for (at, (line, column)) in rows.into_iter().enumerate() {
        assert_eq!(session.position(at), Ok(Position { line, column }));
    }
    assert_eq!(session.position(9), Err(Error::Range));
}

// Opened here, edited and expanded there, and again here; dropped there.
#[test]
fn a_session_moves() {
    let mut session = open(TEXT);
    let here = told(&mut session);
    let there = std::thread::spawn(move || {
        let told = told(&mut session);
        session.edit(55..56, "z").expect("it is edited");
        assert_eq!(read(&mut session).expanded(), 1);
        (told, session)
    });
    let (told_there, mut session) = there.join().expect("it passes");
    assert_eq!(told_there, here);
    assert_eq!(read(&mut session).printed(), "z x\n");
    assert_eq!(read(&mut session).expanded(), 0);
    std::thread::spawn(move || drop(session)).join().expect("it passes");
}

#[test]
fn sessions_side_by_side() {
    let threads: Vec<_> = (0..8).map(|seed| std::thread::spawn(move || edits(seed, 100))).collect();
    for thread in threads {
        thread.join().expect("it passes");
    }
}

// Each thread takes the session by a lock, edits it and asks for its answer.
#[test]
fn threads_share_by_a_lock() {
    let session = std::sync::Mutex::new(open("a"));
    std::thread::scope(|scope| {
        for _ in 0..8 {
            scope.spawn(|| {
                for _ in 0..50 {
                    let mut session = session.lock().expect("no thread panics");
                    session.edit(0..0, "a ").expect("it is edited");
                    let tokens = read(&mut session).tokens().expect("it is short").len();
                    assert_eq!(tokens, session.text().len().div_ceil(2));
                }
            });
        }
    });
    assert_eq!(session.lock().expect("no thread panics").text(), format!("{}a", "a ".repeat(400)));
}

// Numbers that look random, below a bound.
struct Numbers(u32);

impl Numbers {
    fn below(&mut self, bound: usize) -> usize {
        self.0 = self.0.wrapping_mul(1_664_525).wrapping_add(1_013_904_223);
        (self.0 as usize * bound) >> 32
    }
}

// All that is told of an answer but how many pieces were expanded.
fn told(session: &mut Session) -> String {
    match session.expand() {
        Ok(Reply::Read(it)) => {
            let faults: Vec<Fault> = it.faults().collect();
            let tokens: Vec<Token> = it.tokens().expect("it is short").collect();
            format!("{:?} {faults:?} {tokens:?}", it.printed())
        }
        other => format!("{other:?}"),
    }
}

#[test]
fn a_thousand_edits() {
    edits(41, 1000);
}

// Random edits of one session against fresh sessions.
fn edits(seed: u32, count: usize) {
    let definition = "macro_rules! q { ($($t:tt)*) => { $($t)* } }\n";
    let parts = ["x", " y", "(", ")", "p!{ x y }", "'a", "\"s\"", ";", "é", "//c\n", "/// d\n", "$", "::", definition];
    let mut numbers = Numbers(seed);
    let mut text = format!("{TEXT}\n");
    let (mut good, mut read) = (text.clone(), 0);
    let mut session = open(&text);
    for _ in 0..count {
        let start = numbers.below(text.len() + 1);
        let (mut range, mut part) = (start..start + numbers.below(4), parts[numbers.below(parts.len())]);
        if text != good && numbers.below(4) > 0 {
            // Most often back to a text that is read.
            (range, part) = (0..text.len(), &good);
        }
        if text.len() > 400 {
            (range, part) = (0..text.len(), TEXT);
        }
        let wanted = match text.get(range.clone()) {
            Some(_) => Ok(()),
            None if range.end > text.len() => Err(Error::Range),
            None => Err(Error::Boundary),
        };
        assert_eq!(session.edit(range.clone(), part), wanted);
        if wanted.is_ok() {
            text.replace_range(range, part);
        }
        assert_eq!(session.text(), text);
        let told_of_it = told(&mut session);
        assert_eq!(told_of_it, told(&mut open(&text)));
        if !told_of_it.contains("Unread") {
            (good, read) = (text.clone(), read + 1);
        }
    }
    assert!(read >= count / 3, "{read} of {count}");
}
