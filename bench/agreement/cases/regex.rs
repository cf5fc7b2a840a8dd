// Definitions and calls of macros cut out of regex-1.7.1, which is licensed as MIT OR Apache-2.0.

// from examples/shootout-regex-dna-bytes.rs
macro_rules! regex {
    ($re:expr) => {
        ::regex::bytes::Regex::new($re).unwrap()
    };
}
regex!(">[^\n]*\n|\n");
regex!("agggtaaa|tttaccct");
regex!("[cgt]gggtaaa|tttaccc[acg]");
regex!("a[act]ggtaaa|tttacc[agt]t");
regex!("ag[act]gtaaa|tttac[agt]ct");
regex!("agg[act]taaa|ttta[agt]cct");

// from examples/shootout-regex-dna-cheat.rs
macro_rules! regex {
    ($re:expr) => {
        ::regex::Regex::new($re).unwrap()
    };
}
regex!(">[^\n]*\n|\n");
regex!("agggtaaa|tttaccct");
regex!("[cgt]gggtaaa|tttaccc[acg]");
regex!("a[act]ggtaaa|tttacc[agt]t");
regex!("ag[act]gtaaa|tttac[agt]ct");
regex!("agg[act]taaa|ttta[agt]cct");

// from examples/shootout-regex-dna-replace.rs
macro_rules! regex {
    ($re:expr) => {{
        use regex::internal::ExecBuilder;
        ExecBuilder::new($re).build().unwrap().into_regex()
    }};
}
regex!(">[^\n]*\n|\n");

// from examples/shootout-regex-dna-single.rs
macro_rules! regex {
    ($re:expr) => {
        ::regex::Regex::new($re).unwrap()
    };
}
regex!("B");
regex!("D");
regex!("H");
regex!("K");
regex!("M");
regex!("N");

// from src/expand.rs
macro_rules! find {
        ($name:ident, $text:expr) => {
            #[test]
            fn $name() {
                assert_eq!(None, find_cap_ref($text.as_bytes()));
            }
        };
        ($name:ident, $text:expr, $capref:expr) => {
            #[test]
            fn $name() {
                assert_eq!(Some($capref), find_cap_ref($text.as_bytes()));
            }
        };
    }
find!(find_cap_ref12, " ");
find!(find_cap_ref13, "");

// from src/expand.rs
macro_rules! c {
        ($name_or_number:expr, $pos:expr) => {
            CaptureRef { cap: $name_or_number.into(), end: $pos }
        };
    }
c!("foo", 4);
c!("foo", 6);
c!(0, 2);
c!(5, 2);
c!(10, 3);
c!("42a", 4);

// from tests/noparse.rs
macro_rules! noparse(
    ($name:ident, $re:expr) => (
        #[test]
        fn $name() {
            let re = $re;
            match regex_new!(re) {
                Err(_) => {},
                Ok(_) => panic!("Regex '{}' should cause a parse error.", re),
            }
        }
    );
);
noparse!(fail_no_repeat_arg, "*");
noparse!(fail_incomplete_escape, "\\");
noparse!(fail_class_incomplete, "[A-");
noparse!(fail_class_not_closed, "[A");
noparse!(fail_class_no_end, r"[\z]");
noparse!(fail_class_no_boundary, r"[\b]");

// from tests/shortest_match.rs
macro_rules! shortmat {
    ($name:ident, $re:expr, $text:expr, $shortest_match:expr) => {
        #[test]
        fn $name() {
            let text = text!($text);
            let re = regex!($re);
            assert_eq!($shortest_match, re.shortest_match(text));
        }
    };
}
shortmat!(t01, r"a+", r"aa", Some(1));
shortmat!(t02, r".*(?:abcd)+", r"abcdabcd", Some(4));
