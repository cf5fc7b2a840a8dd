// Definitions and calls of macros cut out of hashbrown-0.12.3, which is licensed as MIT OR Apache-2.0.

// from tests/rayon.rs
macro_rules! assert_eq3 {
    ($e1:expr, $e2:expr, $e3:expr) => {{
        assert_eq!($e1, $e2);
        assert_eq!($e1, $e3);
        assert_eq!($e2, $e3);
    }};
}
assert_eq3!(vec_seq, vec_par, []);
assert_eq3!(vec_seq, vec_par, expected_sorted);
assert_eq3!(vec_seq, vec_par, expected);
assert_eq3!(map_seq, map_par, expected);
assert_eq3!(set_seq, set_par, expected);
assert_eq3!(diff_ab_seq, diff_ab_par, *SET_DIFF_AB);
