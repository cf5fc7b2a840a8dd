//! What the archive exports. `bindings/c/filgordd.h` says what each call does.

#[repr(C)]
pub struct Session {
    pub held: *mut u8,
}

#[repr(C)]
#[derive(Clone, Copy, Debug, Default)]
pub struct Range {
    pub start: u32,
    pub end: u32,
}

#[repr(C)]
#[derive(Clone, Copy, Debug, Default)]
pub struct Fault {
    pub kind: u32,
    pub range: Range,
}

#[repr(C)]
#[derive(Clone, Copy, Debug, Default)]
pub struct Counts {
    pub printed: usize,
    pub tokens: usize,
    pub faults: usize,
    pub expanded: usize,
}

#[repr(C)]
#[derive(Clone, Copy, Debug, Default)]
pub struct SourceTold {
    pub definitions: usize,
    pub fault: Fault,
}

#[repr(C)]
#[derive(Clone, Copy, Debug)]
pub struct Pick {
    pub source: u32,
    pub index: u32,
}

#[repr(C)]
#[derive(Clone, Copy, Debug)]
pub struct Options {
    pub edition: u32,
    pub grammar: u32,
    pub scope: u32,
    pub depth: u8,
    pub calls: usize,
    pub tokens: usize,
}

#[repr(C)]
#[derive(Clone, Copy, Debug)]
pub struct Word {
    pub bytes: *const u8,
    pub len: usize,
}

#[repr(C)]
#[derive(Clone, Copy, Debug, Default)]
pub struct Position {
    pub line: usize,
    pub column: usize,
}

/// A call that tells the words for a number.
pub type Words = unsafe extern "C" fn(u32, *mut u8, usize, *mut usize) -> u32;

unsafe extern "C" {
    pub fn filgordd_raw_open_with(
        s: *mut Session,
        text: *const u8,
        len: usize,
        options: *const Options,
    ) -> u32;
    pub fn filgordd_raw_open_cfg(
        s: *mut Session,
        text: *const u8,
        len: usize,
        options: *const Options,
        words: *const Word,
        count: usize,
    ) -> u32;
    pub fn filgordd_raw_close(s: *mut Session);
    pub fn filgordd_raw_text(s: *mut Session, room: *mut u8, len: usize, wanted: *mut usize) -> u32;
    pub fn filgordd_raw_is_boundary(s: *mut Session, at: usize) -> u32;
    pub fn filgordd_raw_fits(s: *mut Session, start: usize, end: usize, len: usize) -> u32;
    pub fn filgordd_raw_edit(
        s: *mut Session,
        start: usize,
        end: usize,
        replacement: *const u8,
        len: usize,
    ) -> u32;
    pub fn filgordd_raw_expand(s: *mut Session) -> u32;
    pub fn filgordd_raw_counts(s: *mut Session, into: *mut Counts) -> u32;
    pub fn filgordd_raw_printed(s: *mut Session, room: *mut u8, len: usize) -> u32;
    pub fn filgordd_raw_json(s: *mut Session, room: *mut u8, len: usize, wanted: *mut usize) -> u32;
    pub fn filgordd_raw_fault(s: *mut Session, index: usize, into: *mut Fault) -> u32;
    pub fn filgordd_raw_reading_fault(s: *mut Session, into: *mut Fault) -> u32;
    pub fn filgordd_raw_origins(s: *mut Session, room: *mut Range, len: usize) -> u32;
    pub fn filgordd_raw_token_ranges(s: *mut Session, room: *mut Range, len: usize) -> u32;
    pub fn filgordd_raw_source(
        s: *mut Session,
        number: u32,
        root: *const u8,
        root_len: usize,
        edition: u32,
        text: *const u8,
        len: usize,
        into: *mut SourceTold,
    ) -> u32;
    pub fn filgordd_raw_prelude(s: *mut Session, picks: *const Pick, len: usize) -> u32;
    pub fn filgordd_raw_sources(s: *mut Session, room: *mut u32, len: usize) -> u32;
    pub fn filgordd_raw_position(s: *mut Session, at: usize, into: *mut Position) -> u32;
    pub fn filgordd_raw_version(room: *mut u8, len: usize, wanted: *mut usize) -> u32;
    pub fn filgordd_raw_code_words(code: u32, room: *mut u8, len: usize, wanted: *mut usize) -> u32;
    pub fn filgordd_raw_fault_words(kind: u32, room: *mut u8, len: usize, wanted: *mut usize) -> u32;
    pub fn filgordd_raw_reading_fault_words(
        kind: u32,
        room: *mut u8,
        len: usize,
        wanted: *mut usize,
    ) -> u32;
}
