// Definitions and calls of macros cut out of time-0.3.9, which is licensed as MIT OR Apache-2.0.

// from src/duration.rs
macro_rules! item {
            ($name:literal, $value:expr) => {
                match $value {
                    0 => Ok(()),
                    value => value.fmt(f).and(f.write_str($name)),
                }
            };
        }
item!("d", seconds / 86_400);
item!("h", seconds / 3_600 % 24);
item!("m", seconds / 60 % 60);
item!("s", seconds % 60);
item!("ms", nanoseconds / 1_000_000);
item!("µs", nanoseconds / 1_000 % 1_000);

// from src/duration.rs
macro_rules! duration_mul_div_int {
    ($($type:ty),+) => {$(
        impl Mul<$type> for Duration {
            type Output = Self;

            fn mul(self, rhs: $type) -> Self::Output {
                Self::nanoseconds_i128(
                    self.whole_nanoseconds()
                        .checked_mul(rhs as _)
                        .expect("overflow when multiplying duration")
                )
            }
        }

        impl Mul<Duration> for $type {
            type Output = Duration;

            fn mul(self, rhs: Duration) -> Self::Output {
                rhs * self
            }
        }

        impl Div<$type> for Duration {
            type Output = Self;

            fn div(self, rhs: $type) -> Self::Output {
                Self::nanoseconds_i128(self.whole_nanoseconds() / rhs as i128)
            }
        }
    )+};
}
duration_mul_div_int![i8, i16, i32, u8, u16, u32];

// from src/quickcheck.rs
macro_rules! arbitrary_between {
    ($type:ty; $gen:expr, $min:expr, $max:expr) => {{
        let min = $min;
        let max = $max;
        let range = max - min;
        <$type>::arbitrary($gen).rem_euclid(range + 1) + min
    }};
}
arbitrary_between!(
            i32;
            g,
            Self::MIN.to_julian_day(),
            Self::MAX.to_julian_day()
        );
arbitrary_between!(
            i128;
            g,
            Self::MIN.whole_nanoseconds(),
            Self::MAX.whole_nanoseconds()
        );
arbitrary_between!(u8; g, 0, 23);
arbitrary_between!(u8; g, 0, 59);
arbitrary_between!(u32; g, 0, 999_999_999);
arbitrary_between!(i32; g, -86_399, 86_399);

// from src/parsing/parsed.rs
macro_rules! getters {
    ($($name:ident: $ty:ty),+ $(,)?) => {$(
        /// Obtain the named component.
        pub const fn $name(&self) -> Option<$ty> {
            self.$name
        }
    )*}
}
getters! {
        year: i32,
        year_last_two: u8,
        iso_year: i32,
        iso_year_last_two: u8,
        month: Month,
        sunday_week_number: u8,
        monday_week_number: u8,
        iso_week_number: NonZeroU8,
        weekday: Weekday,
        ordinal: NonZeroU16,
        day: NonZeroU8,
        hour_24: u8,
        hour_12: NonZeroU8,
        hour_12_is_pm: bool,
        minute: u8,
        second: u8,
        subsecond: u32,
        offset_hour: i8,
    }
