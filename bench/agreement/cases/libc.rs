// Definitions and calls of macros cut out of libc-0.2.139, which is licensed as MIT OR Apache-2.0.

// from build.rs
macro_rules! otry {
        ($e:expr) => {
            match $e {
                Some(e) => e,
                None => panic!("Failed to get rustc version"),
            }
        };
    }
otry!(env::var_os("RUSTC"));
otry!(str::from_utf8(&output.stdout).ok());
otry!(pieces.next());
otry!(otry!(minor).parse().ok());
otry!(minor);

// from src/fixed_width_ints.rs
macro_rules! static_assert_eq {
                    ($a:expr, $b:expr) => {
                        const _: [(); $a] = [(); $b];
                    };
                }
static_assert_eq!(core::mem::size_of::<__int128>(), _SIZE_128);
static_assert_eq!(core::mem::align_of::<__int128>(), _ALIGN_128);
static_assert_eq!(core::mem::size_of::<__uint128>(), _SIZE_128);
static_assert_eq!(core::mem::align_of::<__uint128>(), _ALIGN_128);
static_assert_eq!(core::mem::size_of::<__int128_t>(), _SIZE_128);
static_assert_eq!(core::mem::align_of::<__int128_t>(), _ALIGN_128);
