//! The words that the library has for numbers.
use crate::sys;
use std::fmt;

/// Words in ASCII. None of the library's has more bytes.
pub(crate) struct Words {
    bytes: [u8; 64],
    len: usize,
}

impl Words {
    // Those that a call writes.
    fn told(tell: impl FnOnce(*mut u8, usize, *mut usize) -> u32) -> Words {
        let mut words = Words { bytes: [0; 64], len: 0 };
        let code = tell(words.bytes.as_mut_ptr(), words.bytes.len(), &mut words.len);
        assert_eq!(code, 0, "the library has words for it");
        words
    }

    /// Those for a number.
    pub(crate) fn of(tell: sys::Words, number: u32) -> Words {
        // SAFETY: there is room for as many bytes as are said, and for the length.
        Words::told(|room, len, wanted| unsafe { tell(number, room, len, wanted) })
    }

    /// The version.
    pub(crate) fn version() -> Words {
        // SAFETY: as above.
        Words::told(|room, len, wanted| unsafe { sys::filgordd_raw_version(room, len, wanted) })
    }

    /// The words.
    pub(crate) fn as_str(&self) -> &str {
        std::str::from_utf8(&self.bytes[..self.len]).expect("they are ASCII")
    }
}

impl fmt::Display for Words {
    fn fmt(&self, f: &mut fmt::Formatter<'_>) -> fmt::Result {
        f.pad(self.as_str())
    }
}
