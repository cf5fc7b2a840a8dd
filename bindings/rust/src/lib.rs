//! An incremental expander of Rust's declarative macros: it keeps what a text gave, and after an edit
//! expands again only what the edit can affect. The library under this crate is proved to answer as
//! a new session over the edited text does.
//!
//! ```
//! use filgordd::{Edition, Reply, Session};
//!
//! let text = "macro_rules! p { ($a:ident $b:tt) => { $b $a } } p!{ x y }";
//! let mut session = Session::new(text, Edition::Edition2024, 128)?;
//! let Reply::Read(expansion) = session.expand()? else { panic!("it is read") };
//! assert_eq!(expansion.printed(), "y x\n");
//! # Ok::<(), filgordd::Error>(())
//! ```
//!
//! Ranges are of bytes. A range of the text has to begin and end at character boundaries.
//!
//! The crate links the library of a release of Filgordd, and of the same version: that of the folder
//! `FILGORDD_DIR`, where it was installed or unpacked, or the one that `pkg-config` knows, or the one in
//! the crate's own folder `native`.

#![deny(missing_docs)]

mod error;
mod sys;
mod words;

pub use error::Error;

use error::checked;
use std::cell::UnsafeCell;
use std::fmt;
use std::num::NonZeroUsize;
use std::ops::Range;
use words::Words;

const UNREAD: u32 = 1;
const NOTHING: u32 = 12;
const ROOM: u32 = 14;

/// The version of the library, which is that of this crate.
///
/// ```
/// assert_eq!(filgordd::version(), env!("CARGO_PKG_VERSION"));
/// ```
pub fn version() -> String {
    Words::version().as_str().into()
}

/// The edition of all identifiers of a text.
#[derive(Clone, Copy, Debug, PartialEq, Eq, Hash)]
pub enum Edition {
    /// That of 2015.
    Edition2015 = 2015,
    /// That of 2018.
    Edition2018 = 2018,
    /// That of 2021.
    Edition2021 = 2021,
    /// That of 2024.
    Edition2024 = 2024,
}

/// What fragments such as `$e:expr` take.
#[derive(Clone, Copy, Debug, Default, PartialEq, Eq, Hash)]
pub enum Grammar {
    /// A small one: no statements, no items, no closures and no control flow.
    Small = 0,
    /// That of Rust, in the edition of the session. It knows all fragments.
    #[default]
    Rust = 1,
}

/// Which definitions a name can find.
#[derive(Clone, Copy, Debug, Default, PartialEq, Eq, Hash)]
pub enum Scope {
    /// Those that are pieces of a text.
    #[default]
    Top = 0,
    /// Those of the lists around the call, by Rust's textual scope, and then those. The `;` behind an
    /// item's call goes with the call.
    Rust = 1,
}

/// What a session is opened with. By default that is the grammar of Rust, edition 2024, the scope of
/// the top level, 128 levels of calls, no evaluation of `cfg`, and no limit of what a call makes.
#[derive(Clone, Copy, Debug, PartialEq, Eq, Hash)]
pub struct Options<'a> {
    /// What fragments such as `$e:expr` take.
    pub grammar: Grammar,
    /// The edition of all identifiers of the text.
    pub edition: Edition,
    /// Which definitions a name can find.
    pub scope: Scope,
    /// How many levels of calls are expanded.
    pub depth: u8,
    /// The options that are set for conditional compilation, each as after `--cfg` of rustc: `NAME`,
    /// or `NAME="VALUE"` with a string of Rust. Definitions, and whole items in lists of items, whose
    /// `cfg` is then false are left out, those of sources too. With `None` nothing is left out.
    pub cfg: Option<&'a [&'a str]>,
    /// How many calls may be expanded for one call of the text, itself among them. A call that makes
    /// more stays. With `None` there is no limit.
    pub most_calls: Option<NonZeroUsize>,
    /// How many tokens rules may put out for it and for the calls in its results.
    pub most_tokens: Option<NonZeroUsize>,
}

impl Default for Options<'_> {
    fn default() -> Self {
        let (grammar, scope) = (Grammar::default(), Scope::default());
        let (most_calls, most_tokens) = (None, None);
        Options { grammar, edition: Edition::Edition2024, scope, depth: 128, cfg: None, most_calls, most_tokens }
    }
}

// A limit as C has it.
fn number(limit: Option<NonZeroUsize>) -> usize {
    limit.map_or(0, NonZeroUsize::get)
}

/// The kind of a fault.
#[derive(Clone, Copy, Debug, PartialEq, Eq, Hash)]
pub enum FaultKind {
    /// No rule of the definition fits the call.
    CannotExpand,
    /// The definition's rules cannot be parsed.
    BrokenDefinition,
    /// No level is left to expand the call.
    RecursionLimit,
    /// `macro_rules` or `macro` is in the output.
    NestedDefinition,
    /// A token has no spelling, and was omitted.
    Unspellable,
    /// The call makes more than the options say.
    TooLarge,
}

/// The words that `filgordd expand` prints for it.
impl fmt::Display for FaultKind {
    fn fmt(&self, f: &mut fmt::Formatter<'_>) -> fmt::Result {
        Words::of(sys::filgordd_raw_fault_words, *self as u32).fmt(f)
    }
}

/// A fault, and the bytes of the text that it is reported at.
#[derive(Clone, Debug, PartialEq, Eq, Hash)]
pub struct Fault {
    /// What it is.
    pub kind: FaultKind,
    /// The bytes of the text.
    pub range: Range<usize>,
}

/// Why a text cannot be read as trees.
#[derive(Clone, Copy, Debug, PartialEq, Eq, Hash)]
pub enum ReadFaultKind {
    /// Bytes that are no token.
    BadToken,
    /// A closing bracket that does not fit the opening one, or that has none.
    CloserDoesNotFit,
    /// An opening bracket without its closing one.
    GroupLeftOpen,
}

/// The words that `filgordd expand` prints for it.
impl fmt::Display for ReadFaultKind {
    fn fmt(&self, f: &mut fmt::Formatter<'_>) -> fmt::Result {
        Words::of(sys::filgordd_raw_reading_fault_words, *self as u32).fmt(f)
    }
}

/// The first fault of a text that cannot be read, and its bytes.
#[derive(Clone, Debug, PartialEq, Eq, Hash)]
pub struct ReadFault {
    /// What it is.
    pub kind: ReadFaultKind,
    /// The bytes of the text.
    pub range: Range<usize>,
}

/// Where a byte of a text is: its line and its byte column, both from 1, as `filgordd expand` prints
/// them. Lines end at line feeds.
#[derive(Clone, Copy, Debug, PartialEq, Eq, Hash)]
pub struct Position {
    /// The line.
    pub line: usize,
    /// The byte column.
    pub column: usize,
}

/// A printed token. A lifetime is two, its quote and its name.
#[derive(Clone, Debug, PartialEq, Eq, Hash)]
pub struct Token {
    /// Its bytes in the printed text.
    pub range: Range<usize>,
    /// The bytes of the text that it comes from: of the session's text, or of the source that
    /// `Expansion::sources` tells.
    pub origin: Range<usize>,
}

/// Another crate: the word that its `$crate` is printed as, and the edition of its definitions.
#[derive(Clone, Copy, Debug, PartialEq, Eq, Hash)]
pub struct Home<'a> {
    /// The word, such as `std`.
    pub root: &'a str,
    /// The edition.
    pub edition: Edition,
}

/// What a text is read as, for its definitions.
#[derive(Clone, Debug, PartialEq, Eq, Hash)]
pub enum Source {
    /// How many definitions it has.
    Read(usize),
    /// Why it cannot be read.
    Unread(ReadFault),
}

/// Definitions of a source, by the source's number.
#[derive(Clone, Copy, Debug, PartialEq, Eq, Hash)]
pub enum Pick {
    /// The definition of an index.
    One(u32, u32),
    /// All that are in no inline module and have no attribute `rustc_builtin_macro`.
    All(u32),
}

impl Pick {
    fn raw(self) -> sys::Pick {
        match self {
            Pick::One(source, index) => sys::Pick { source, index },
            Pick::All(source) => sys::Pick { source, index: u32::MAX },
        }
    }
}

/// What a text gives.
#[derive(Debug)]
pub enum Reply<'s> {
    /// Its expansion.
    Read(Expansion<'s>),
    /// Why it cannot be read.
    Unread(ReadFault),
}

fn range(it: sys::Range) -> Range<usize> {
    it.start as usize..it.end as usize
}

fn read_fault(fault: sys::Fault) -> ReadFault {
    let kind = match fault.kind {
        0 => ReadFaultKind::BadToken,
        1 => ReadFaultKind::CloserDoesNotFit,
        _ => ReadFaultKind::GroupLeftOpen,
    };
    ReadFault { kind, range: range(fault.range) }
}

/// A text that may be edited and expanded. It may move to another thread, and one thread uses it at
/// a time:
///
/// ```
/// # use filgordd::{Edition, Session};
/// let mut session = Session::new("a;", Edition::Edition2024, 128)?;
/// let other = std::thread::spawn(move || session.edit(0..1, "b").map(|()| session.text()));
/// assert_eq!(other.join().expect("it does not panic")?, "b;");
/// # Ok::<(), filgordd::Error>(())
/// ```
///
/// ```compile_fail
/// fn needs_sync(_: impl Sync) {}
/// # use filgordd::{Edition, Session};
/// needs_sync(Session::new("", Edition::Edition2024, 128));
/// ```
///
/// Expanding may take most of the 2 MiB of stack that a thread of `std` has: `bindings/c/filgordd.h`
/// says how much, and `std::thread::Builder::stack_size` gives more.
#[derive(Debug)]
pub struct Session {
    // Each call takes what is held out and puts it back, also one that only looks. So two threads
    // may not share a session: the cell, and the pointer in it, keep it from being `Sync`.
    raw: UnsafeCell<sys::Session>,
}

// SAFETY: a session moves whole. All that a call on it reads or writes is behind its one pointer, and
// nothing else refers to that:
//
// - The library shares values by counts that are not atomic. Two sessions could share a count only
//   by a call that is handed both, or by a variable that outlives a call. No export is handed two,
//   and there is no such variable: all statics are constant tables, and none is by thread, which
//   `.ci/bindings` looks for in the archive. What shares within a session, as names, pieces, memos,
//   sources, the prelude and the last answer do, moves with it.
// - No call hands out a pointer to what is held: texts are copied in, and answers are copied out.
// - An `Expansion` asks its session, which it borrows. It is not `Send`, since a session is not
//   `Sync`, and while it lives its session cannot move. A `Token` or a `Fault` is a copy.
// - Memory comes from `malloc` and goes by `free`, which any thread may call.
// - Whoever sends a session has finished its calls, and they come before those of the receiver.
unsafe impl Send for Session {}

impl Session {
    /// A session over a copy of the text, with the grammar of Rust. `depth` is how many levels of
    /// calls are expanded. Names find pieces of texts alone, as by `Scope::Top`. Nothing is expanded
    /// yet.
    pub fn new(text: &str, edition: Edition, depth: u8) -> Result<Session, Error> {
        Session::with_grammar(text, Grammar::Rust, edition, depth)
    }

    /// The same with a grammar.
    ///
    /// ```
    /// # use filgordd::{Edition, Grammar, Reply, Session};
    /// let text = "macro_rules! e { ($a:expr) => { $a } } e!{ |x| x + 1 }";
    /// let mut session = Session::with_grammar(text, Grammar::Small, Edition::Edition2024, 128)?;
    /// let Reply::Read(expansion) = session.expand()? else { panic!("it is read") };
    /// assert_eq!(expansion.faults().len(), 1);
    /// # Ok::<(), filgordd::Error>(())
    /// ```
    pub fn with_grammar(
        text: &str,
        grammar: Grammar,
        edition: Edition,
        depth: u8,
    ) -> Result<Session, Error> {
        Session::with_options(text, Options { grammar, edition, depth, ..Options::default() })
    }

    /// The same by all options.
    ///
    /// ```
    /// # use filgordd::{Options, Reply, Scope, Session};
    /// let text = "fn f() { macro_rules! m { () => { 1 } } m!() }";
    /// let mut session = Session::with_options(text, Options { scope: Scope::Rust, ..Options::default() })?;
    /// let Reply::Read(expansion) = session.expand()? else { panic!("it is read") };
    /// assert_eq!(expansion.printed(), "fn f ( ) { 1 }\n");
    /// # Ok::<(), filgordd::Error>(())
    /// ```
    ///
    /// Of these two definitions the one whose option is set is used:
    ///
    /// ```
    /// # use filgordd::{Error, Options, Reply, Session};
    /// let text = "#[cfg(unix)] macro_rules! m { () => { 1 } } #[cfg(not(unix))] macro_rules! m { () => { 2 } } m!{}";
    /// let mut session = Session::with_options(text, Options { cfg: Some(&["unix"]), ..Options::default() })?;
    /// let Reply::Read(expansion) = session.expand()? else { panic!("it is read") };
    /// assert_eq!(expansion.printed(), "1\n");
    ///
    /// let wrong = Session::with_options(text, Options { cfg: Some(&["unix", "a = b"]), ..Options::default() });
    /// assert_eq!(wrong.err(), Some(Error::Cfg));
    /// # Ok::<(), Error>(())
    /// ```
    ///
    /// A call that would never end:
    ///
    /// ```
    /// # use filgordd::{FaultKind, Options, Reply, Session};
    /// # use std::num::NonZeroUsize;
    /// let text = "macro_rules! w { () => { w!{} w!{} } } w!{}";
    /// let most_calls = NonZeroUsize::new(1000);
    /// let mut session = Session::with_options(text, Options { most_calls, ..Options::default() })?;
    /// let Reply::Read(expansion) = session.expand()? else { panic!("it is read") };
    /// assert_eq!(expansion.printed(), "w ! { }\n");
    /// assert_eq!(expansion.faults().next().expect("one").kind, FaultKind::TooLarge);
    /// # Ok::<(), filgordd::Error>(())
    /// ```
    pub fn with_options(text: &str, options: Options<'_>) -> Result<Session, Error> {
        let held = std::ptr::null_mut();
        let raw = UnsafeCell::new(sys::Session { held });
        let session = Session { raw };
        let (edition, grammar) = (options.edition as u32, options.grammar as u32);
        let (cfg, scope, depth) = (options.cfg, options.scope as u32, options.depth);
        let (calls, tokens) = (number(options.most_calls), number(options.most_tokens));
        let options = sys::Options { edition, grammar, scope, depth, calls, tokens };
        let (at, len) = (text.as_ptr(), text.len());
        checked(match cfg {
            // SAFETY: the struct holds no session, the bytes are those of a `&str`, and the options are there.
            None => unsafe { sys::filgordd_raw_open_with(session.at(), at, len, &options) },
            Some(words) => {
                let words: Vec<sys::Word> = (words.iter())
                    .map(|it| sys::Word { bytes: it.as_ptr(), len: it.len() })
                    .collect();
                // SAFETY: as above, and there are as many words as are said, each of the bytes of a `&str`.
                unsafe {
                    sys::filgordd_raw_open_cfg(session.at(), at, len, &options, words.as_ptr(), words.len())
                }
            }
        })?;
        Ok(session)
    }

    // What all calls are handed. No two run at once: a `Session` is not `Sync`, and none calls back.
    fn at(&self) -> *mut sys::Session {
        self.raw.get()
    }

    /// The text.
    ///
    /// ```
    /// # use filgordd::{Edition, Session};
    /// let mut session = Session::new("a;", Edition::Edition2024, 128)?;
    /// session.edit(0..1, "b")?;
    /// assert_eq!(session.text(), "b;");
    /// # Ok::<(), filgordd::Error>(())
    /// ```
    pub fn text(&self) -> String {
        let (mut none, mut len) = (0, 0);
        // SAFETY: there is room for 0 bytes, and for the length.
        unsafe { sys::filgordd_raw_text(self.at(), &mut none, 0, &mut len) };
        let mut bytes = vec![0; len];
        // SAFETY: there is room for as many bytes as are said.
        unsafe { sys::filgordd_raw_text(self.at(), bytes.as_mut_ptr(), len, &mut len) };
        String::from_utf8(bytes).expect("a session's text is UTF-8")
    }

    /// Whether the offset is a character boundary of the text, its end included.
    pub fn is_boundary(&self, at: usize) -> bool {
        // SAFETY: the session is open.
        unsafe { sys::filgordd_raw_is_boundary(self.at(), at) == 0 }
    }

    /// Whether `len` bytes can replace these, as far as lengths go.
    pub fn fits(&self, range: Range<usize>, len: usize) -> bool {
        // SAFETY: the session is open.
        unsafe { sys::filgordd_raw_fits(self.at(), range.start, range.end, len) == 0 }
    }

    /// Where the offset of the text is, that of its end included: counted from the beginning of the
    /// text. A fault and an origin are of the text that was expanded.
    ///
    /// ```
    /// # use filgordd::{Edition, Error, Position, Session};
    /// let session = Session::new("a;\né b", Edition::Edition2024, 128)?;
    /// assert_eq!(session.position(6), Ok(Position { line: 2, column: 4 }));
    /// assert_eq!(session.position(8), Err(Error::Range));
    /// # Ok::<(), Error>(())
    /// ```
    pub fn position(&self, at: usize) -> Result<Position, Error> {
        let mut into = sys::Position::default();
        // SAFETY: there is room for a position.
        checked(unsafe { sys::filgordd_raw_position(self.at(), at, &mut into) })?;
        Ok(Position { line: into.line, column: into.column })
    }

    /// Replaces these bytes of the text.
    ///
    /// ```
    /// # use filgordd::{Edition, Error, Session};
    /// let mut session = Session::new("é", Edition::Edition2024, 128)?;
    /// assert_eq!(session.edit(1..2, ""), Err(Error::Boundary));
    /// assert_eq!(session.edit(0..3, ""), Err(Error::Range));
    /// # Ok::<(), Error>(())
    /// ```
    pub fn edit(&mut self, range: Range<usize>, replacement: &str) -> Result<(), Error> {
        let (at, len) = (replacement.as_ptr(), replacement.len());
        // SAFETY: the bytes are those of a `&str`.
        checked(unsafe { sys::filgordd_raw_edit(self.at(), range.start, range.end, at, len) })
    }

    /// Expands the text, or says why it cannot be read.
    pub fn expand(&mut self) -> Result<Reply<'_>, Error> {
        // SAFETY: the session is open.
        match unsafe { sys::filgordd_raw_expand(self.at()) } {
            UNREAD => Ok(Reply::Unread(self.reading_fault())),
            code => {
                checked(code)?;
                Ok(Reply::Read(Expansion::of(self)))
            }
        }
    }

    /// The last answer as a line of JSON, an `expansion` or `unread` of docs/JSON.md, without a line
    /// feed. `None` if the text was not expanded yet, or was edited since. It is made at each call.
    ///
    /// ```
    /// # use filgordd::{Edition, Session};
    /// let mut session = Session::new("a;", Edition::Edition2024, 128)?;
    /// session.expand()?;
    /// let line = session.json()?.expect("the text was expanded");
    /// assert!(line.starts_with(r#"{"answer":"expansion","expanded":1,"#));
    /// session.edit(0..1, "b")?;
    /// assert_eq!(session.json()?, None);
    /// # Ok::<(), filgordd::Error>(())
    /// ```
    pub fn json(&self) -> Result<Option<String>, Error> {
        let (mut none, mut len) = (0, 0);
        // SAFETY: there is room for 0 bytes, and for the length.
        match unsafe { sys::filgordd_raw_json(self.at(), &mut none, 0, &mut len) } {
            NOTHING => return Ok(None),
            ROOM => {}
            code => checked(code)?,
        }
        let mut bytes = vec![0; len];
        // SAFETY: there is room for as many bytes as are said.
        checked(unsafe { sys::filgordd_raw_json(self.at(), bytes.as_mut_ptr(), len, &mut len) })?;
        Ok(Some(String::from_utf8(bytes).expect("a line of JSON is UTF-8")))
    }

    fn reading_fault(&self) -> ReadFault {
        let mut fault = sys::Fault::default();
        // SAFETY: there is room for a fault.
        unsafe { sys::filgordd_raw_reading_fault(self.at(), &mut fault) };
        read_fault(fault)
    }

    /// Reads a text as the source of this number, from 1 on, in place of the one that has it. It
    /// belongs to this session. Without a home its definitions are of the crate of the session's text.
    /// The prelude stays as it is, and the old source too if the text cannot be read.
    ///
    /// ```
    /// # use filgordd::{Edition, Home, Pick, ReadFaultKind, Reply, Session, Source};
    /// let mut session = Session::new("f(two!())", Edition::Edition2024, 128)?;
    /// let std = Home { root: "std", edition: Edition::Edition2021 };
    /// let text = "macro_rules! two { () => { $crate::id!(2) } } macro_rules! id { ($x:expr) => { $x } }";
    /// assert_eq!(session.source(1, Some(std), text)?, Source::Read(2));
    /// session.prelude(&[Pick::One(1, 0)])?;
    /// let Reply::Read(expansion) = session.expand()? else { panic!("it is read") };
    /// assert_eq!(expansion.printed(), "f ( 2 )\n");
    /// assert_eq!(expansion.sources(), [0, 0, 1, 0]);
    /// # Ok::<(), filgordd::Error>(())
    /// ```
    pub fn source(&mut self, number: u32, home: Option<Home<'_>>, text: &str) -> Result<Source, Error> {
        let (root, edition) = home.map_or(("", 0), |it| (it.root, it.edition as u32));
        if home.is_some() && root.is_empty() {
            return Err(Error::Root);
        }
        let mut told = sys::SourceTold::default();
        let (at, len) = (text.as_ptr(), text.len());
        // SAFETY: the bytes are those of `&str`s, and there is room for what is told.
        match unsafe {
            sys::filgordd_raw_source(self.at(), number, root.as_ptr(), root.len(), edition, at, len, &mut told)
        } {
            UNREAD => Ok(Source::Unread(read_fault(told.fault))),
            code => checked(code).map(|()| Source::Read(told.definitions)),
        }
    }

    /// From the next expansion on the text is expanded after these definitions, in order, the nearest
    /// last; its own are nearer. Besides, those of each source of another crate are seen behind its
    /// root, as by `$crate::name` in another of them.
    pub fn prelude(&mut self, picks: &[Pick]) -> Result<(), Error> {
        let picks: Vec<sys::Pick> = picks.iter().map(|it| it.raw()).collect();
        // SAFETY: there are as many picks as are said.
        checked(unsafe { sys::filgordd_raw_prelude(self.at(), picks.as_ptr(), picks.len()) })
    }
}

impl Drop for Session {
    fn drop(&mut self) {
        // SAFETY: the session is closed once; it may not have been opened, and then nothing happens.
        unsafe { sys::filgordd_raw_close(self.at()) }
    }
}

/// What a text is expanded to. It is read from the session, which is not edited meanwhile.
#[derive(Debug)]
pub struct Expansion<'s> {
    session: &'s Session,
    counts: sys::Counts,
    printed: String,
}

impl<'s> Expansion<'s> {
    fn of(session: &'s Session) -> Expansion<'s> {
        let mut counts = sys::Counts::default();
        // SAFETY: there is room for the counts.
        unsafe { sys::filgordd_raw_counts(session.at(), &mut counts) };
        let mut bytes = vec![0; counts.printed];
        // SAFETY: there is room for as many bytes as are said.
        unsafe { sys::filgordd_raw_printed(session.at(), bytes.as_mut_ptr(), bytes.len()) };
        let printed = String::from_utf8(bytes).expect("printed text is UTF-8");
        Expansion { session, counts, printed }
    }

    /// The printed text.
    pub fn printed(&self) -> &str {
        &self.printed
    }

    /// How many pieces were expanded anew: those that the last text that was read did not have with
    /// equal look-ups.
    pub fn expanded(&self) -> usize {
        self.counts.expanded
    }

    /// The faults, in order of start, end and kind.
    pub fn faults(&self) -> impl ExactSizeIterator<Item = Fault> + '_ {
        (0..self.counts.faults).map(|index| {
            let mut fault = sys::Fault::default();
            // SAFETY: there is room for a fault.
            unsafe { sys::filgordd_raw_fault(self.session.at(), index, &mut fault) };
            let kind = match fault.kind {
                0 => FaultKind::CannotExpand,
                1 => FaultKind::BrokenDefinition,
                2 => FaultKind::RecursionLimit,
                3 => FaultKind::NestedDefinition,
                4 => FaultKind::Unspellable,
                _ => FaultKind::TooLarge,
            };
            Fault { kind, range: range(fault.range) }
        })
    }

    /// The printed tokens, in order. Their ranges are found at each call. `Error::Length` if the
    /// printed text has more than 4,294,967,295 bytes.
    ///
    /// ```
    /// # use filgordd::{Edition, Reply, Session};
    /// let mut session = Session::new("a + 'b", Edition::Edition2024, 128)?;
    /// let Reply::Read(expansion) = session.expand()? else { panic!("it is read") };
    /// let tokens: Vec<&str> = expansion.tokens()?.map(|it| &expansion.printed()[it.range]).collect();
    /// assert_eq!(tokens, ["a", "+", "'", "b"]);
    /// # Ok::<(), filgordd::Error>(())
    /// ```
    pub fn tokens(&self) -> Result<impl ExactSizeIterator<Item = Token> + use<>, Error> {
        let count = self.counts.tokens;
        let mut ranges = vec![sys::Range::default(); count];
        let mut origins = ranges.clone();
        let at = self.session.at();
        // SAFETY: there is room for as many ranges as are said.
        checked(unsafe { sys::filgordd_raw_token_ranges(at, ranges.as_mut_ptr(), count) })?;
        // SAFETY: as above.
        checked(unsafe { sys::filgordd_raw_origins(at, origins.as_mut_ptr(), count) })?;
        let token = |(of, from)| Token { range: range(of), origin: range(from) };
        Ok(ranges.into_iter().zip(origins).map(token))
    }

    /// Which text each printed token comes from: 0 for the session's text, or the number of a source.
    pub fn sources(&self) -> Vec<u32> {
        let mut numbers = vec![0; self.counts.tokens];
        let at = self.session.at();
        // SAFETY: there is room for as many numbers as are said.
        unsafe { sys::filgordd_raw_sources(at, numbers.as_mut_ptr(), numbers.len()) };
        numbers
    }
}

#[cfg(test)]
mod tests;
