// Definitions and calls of macros cut out of syn-1.0.107, which is licensed as MIT OR Apache-2.0.

// from benches/rust.rs
macro_rules! testcases {
        ($($(#[$cfg:meta])* $name:ident,)*) => {
            [
                $(
                    $(#[$cfg])*
                    (stringify!($name), $name::bench as fn(&str) -> Result<(), ()>),
                )*
            ]
        };
    }
testcases!(
        #[cfg(not(syn_only))]
        read_from_disk,
        #[cfg(not(syn_only))]
        tokenstream_parse,
        syn_parse,
        #[cfg(not(syn_only))]
        librustc_parse,
    );

// from src/token.rs
macro_rules! impl_token {
    ($display:tt $name:ty) => {
        #[cfg(feature = "parsing")]
        impl Token for $name {
            fn peek(cursor: Cursor) -> bool {
                fn peek(input: ParseStream) -> bool {
                    <$name as Parse>::parse(input).is_ok()
                }
                peek_impl(cursor, peek)
            }

            fn display() -> &'static str {
                $display
            }
        }

        #[cfg(feature = "parsing")]
        impl private::Sealed for $name {}
    };
}
impl_token!("lifetime" Lifetime);
impl_token!("literal" Lit);
impl_token!("string literal" LitStr);
impl_token!("byte string literal" LitByteStr);
impl_token!("byte literal" LitByte);
impl_token!("character literal" LitChar);

// from src/gen/fold.rs
macro_rules! full {
    ($e:expr) => {
        unreachable!()
    };
}
full!(f.fold_expr_array(_binding_0));
full!(f.fold_expr_assign(_binding_0));
full!(f.fold_expr_assign_op(_binding_0));
full!(f.fold_expr_async(_binding_0));
full!(f.fold_expr_await(_binding_0));
full!(f.fold_expr_box(_binding_0));

// from src/gen/visit.rs
macro_rules! full {
    ($e:expr) => {
        unreachable!()
    };
}
full!(v.visit_expr_array(_binding_0));
full!(v.visit_expr_assign(_binding_0));
full!(v.visit_expr_assign_op(_binding_0));
full!(v.visit_expr_async(_binding_0));
full!(v.visit_expr_await(_binding_0));
full!(v.visit_expr_box(_binding_0));

// from src/gen/visit_mut.rs
macro_rules! full {
    ($e:expr) => {
        unreachable!()
    };
}
full!(v.visit_expr_array_mut(_binding_0));
full!(v.visit_expr_assign_mut(_binding_0));
full!(v.visit_expr_assign_op_mut(_binding_0));
full!(v.visit_expr_async_mut(_binding_0));
full!(v.visit_expr_await_mut(_binding_0));
full!(v.visit_expr_box_mut(_binding_0));

// from tests/test_iterators.rs
macro_rules! check_exact_size_iterator {
    ($iter:expr) => {{
        let iter = $iter;
        let size_hint = iter.size_hint();
        let len = iter.len();
        let count = iter.count();
        assert_eq!(len, count);
        assert_eq!(size_hint, (count, Some(count)));
    }};
}
check_exact_size_iterator!(p.pairs());
check_exact_size_iterator!(p.pairs_mut());
check_exact_size_iterator!(p.into_pairs());
check_exact_size_iterator!(p.iter());
check_exact_size_iterator!(p.iter_mut());
check_exact_size_iterator!(p.into_iter());
