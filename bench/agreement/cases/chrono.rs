// Definitions and calls of macros cut out of chrono-0.4.23, which is licensed as MIT/Apache-2.0.

// from src/oldtime.rs
macro_rules! try_opt {
    ($e:expr) => {
        match $e {
            Some(v) => v,
            None => return None,
        }
    };
}
try_opt!(self.num_seconds().checked_mul(MICROS_PER_SEC));
try_opt!(self.num_seconds().checked_mul(NANOS_PER_SEC as i64));
try_opt!(self.secs.checked_add(rhs.secs));
try_opt!(secs.checked_add(1));
try_opt!(self.secs.checked_sub(rhs.secs));
try_opt!(secs.checked_sub(1));

// from src/format/parse.rs
macro_rules! try_consume {
        ($e:expr) => {{
            let (s_, v) = $e?;
            s = s_;
            v
        }};
    }
try_consume!(scan::number(s, 1, 2));
try_consume!(scan::short_month0(s));
try_consume!(scan::number(s, 2, usize::MAX));
try_consume!(scan::number(s, 2, 2));
try_consume!(scan::number(s_, 2, 2));
try_consume!(scan::timezone_offset_2822(s));

// from src/format/parse.rs
macro_rules! try_consume {
        ($e:expr) => {{
            let (s_, v) = $e?;
            s = s_;
            v
        }};
    }
try_consume!(scan::number(s, 4, 4));
try_consume!(scan::nanosecond(&s[1..]));
try_consume!(scan::timezone_offset_zulu(s, |s| scan::char(s, b':')));

// from src/format/parse.rs
macro_rules! try_consume {
        ($e:expr) => {{
            match $e {
                Ok((s_, v)) => {
                    s = s_;
                    v
                }
                Err(e) => return Err((s, e)),
            }
        }};
    }
try_consume!(scan::number(&s[1..], 1, usize::MAX));
try_consume!(scan::number(s, 1, width));
try_consume!(scan::short_month0(s));
try_consume!(scan::short_or_long_month0(s));
try_consume!(scan::short_weekday(s));
try_consume!(scan::short_or_long_weekday(s));

// from src/format/parse.rs
macro_rules! check {
        ($fmt:expr, $items:expr; $err:tt) => (
            assert_eq!(parse_all($fmt, &$items), Err($err))
        );
        ($fmt:expr, $items:expr; $($k:ident: $v:expr),*) => (#[allow(unused_mut)] {
            let mut expected = Parsed::new();
            $(expected.$k = Some($v);)*
            assert_eq!(parse_all($fmt, &$items), Ok(expected))
        });
    }
check!("",  []; );
check!("",    [lit!("a")]; TOO_SHORT);
check!("xy",  [lit!("x"), sp!(""), lit!("y")]; );
check!("9999",        [num!(Year)]; year: 9999);
check!("12345",       [num0!(Year), lit!("5")]; year: 1234);
check!("-42",         [num!(Year)]; year: -42);

// from src/format/parsed.rs
macro_rules! parse {
            ($($k:ident: $v:expr),*) => (
                Parsed { $($k: Some($v),)* ..Parsed::new() }.to_naive_date()
            )
        }
parse!();
parse!(year: 1984, month: 1, day: 2);
parse!(year_div_100: 19, year_mod_100: 84, month: 1);
parse!(year_div_100: 19, month: 1, day: 2);
parse!(year_div_100: 19, year_mod_100: 83, month: 2, day: 29);
parse!(year_div_100: 19, year_mod_100: 83, month: 12, day: 32);
