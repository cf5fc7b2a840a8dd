// Definitions and calls of macros cut out of serde_json-1.0.87, which is licensed as MIT OR Apache-2.0.

// from src/de.rs
macro_rules! overflow {
    ($a:ident * 10 + $b:ident, $c:expr) => {
        match $c {
            c => $a >= c / 10 && ($a > c / 10 || $b > c % 10),
        }
    };
}
overflow!(significand * 10 + digit, u64::max_value());
overflow!(exp * 10 + digit, i32::max_value());

// from src/map.rs
macro_rules! delegate_iterator {
    (($name:ident $($generics:tt)*) => $item:ty) => {
        impl $($generics)* Iterator for $name $($generics)* {
            type Item = $item;
            #[inline]
            fn next(&mut self) -> Option<Self::Item> {
                self.iter.next()
            }
            #[inline]
            fn size_hint(&self) -> (usize, Option<usize>) {
                self.iter.size_hint()
            }
        }

        impl $($generics)* DoubleEndedIterator for $name $($generics)* {
            #[inline]
            fn next_back(&mut self) -> Option<Self::Item> {
                self.iter.next_back()
            }
        }

        impl $($generics)* ExactSizeIterator for $name $($generics)* {
            #[inline]
            fn len(&self) -> usize {
                self.iter.len()
            }
        }

        impl $($generics)* FusedIterator for $name $($generics)* {}
    }
}
delegate_iterator!((Iter<'a>) => (&'a String, &'a Value));
delegate_iterator!((IterMut<'a>) => (&'a String, &'a mut Value));
delegate_iterator!((IntoIter) => (String, Value));
delegate_iterator!((Keys<'a>) => &'a String);
delegate_iterator!((Values<'a>) => &'a Value);
delegate_iterator!((ValuesMut<'a>) => &'a mut Value);

// from src/number.rs
macro_rules! impl_from_unsigned {
    (
        $($ty:ty),*
    ) => {
        $(
            impl From<$ty> for Number {
                #[inline]
                fn from(u: $ty) -> Self {
                    let n = {
                        #[cfg(not(feature = "arbitrary_precision"))]
                        { N::PosInt(u as u64) }
                        #[cfg(feature = "arbitrary_precision")]
                        {
                            itoa::Buffer::new().format(u).to_owned()
                        }
                    };
                    Number { n }
                }
            }
        )*
    };
}
impl_from_unsigned!(u8, u16, u32, u64, usize);
impl_from_unsigned!(u128);

// from src/features_check/mod.rs
macro_rules! hide_from_rustfmt {
    ($mod:item) => {
        $mod
    };
}
hide_from_rustfmt! {
    mod error;
}

// from tests/test.rs
macro_rules! test_parse_err {
    ($name:ident::<$($ty:ty),*>($arg:expr) => $expected:expr) => {
        let actual = $name::<$($ty),*>($arg).unwrap_err().to_string();
        assert_eq!(actual, $expected, "unexpected {} error", stringify!($name));
    };
}
test_parse_err!(from_str::<T>(s) => err);
test_parse_err!(from_slice::<T>(s.as_bytes()) => err);
test_parse_err!(from_slice::<T>(s) => err);
