// Definitions and calls of macros cut out of futures-util-0.3.21, which is licensed as MIT OR Apache-2.0.

// from src/fns.rs
macro_rules! trivial_fn_impls {
    ($name:ident <$($arg:ident),*> $t:ty = $debug:literal) => {
        impl<$($arg),*> Copy for $t {}
        impl<$($arg),*> Clone for $t {
            fn clone(&self) -> Self { *self }
        }
        impl<$($arg),*> Debug for $t {
            fn fmt(&self, f: &mut fmt::Formatter<'_>) -> fmt::Result {
                f.write_str($debug)
            }
        }
        impl<$($arg,)* A> FnMut1<A> for $t where Self: FnOnce1<A> {
            fn call_mut(&mut self, arg: A) -> Self::Output {
                self.call_once(arg)
            }
        }
        impl<$($arg,)* A> Fn1<A> for $t where Self: FnOnce1<A> {
            fn call(&self, arg: A) -> Self::Output {
                self.call_once(arg)
            }
        }
        pub(crate) fn $name<$($arg),*>() -> $t {
            Default::default()
        }
    }
}
trivial_fn_impls!(ok_fn <T> OkFn<T> = "Ok");
trivial_fn_impls!(merge_result_fn <> MergeResultFn = "merge_result");
trivial_fn_impls!(into_fn <T> IntoFn<T> = "Into::into");

// from src/io/allow_std.rs
macro_rules! try_with_interrupt {
    ($e:expr) => {
        loop {
            match $e {
                Ok(e) => {
                    break e;
                }
                Err(ref e) if e.kind() == ::std::io::ErrorKind::Interrupted => {
                    continue;
                }
                Err(e) => {
                    return Poll::Ready(Err(e));
                }
            }
        }
    };
}
try_with_interrupt!(self.0.write(buf));
try_with_interrupt!(self.0.write_vectored(bufs));
try_with_interrupt!(self.0.flush());
try_with_interrupt!(self.0.read(buf));
try_with_interrupt!(self.0.read_vectored(bufs));
try_with_interrupt!(self.0.seek(pos));

// from src/io/write_all_vectored.rs
macro_rules! assert_poll_ok {
        ($e:expr, $expected:expr) => {
            let expected = $expected;
            match $e {
                Poll::Ready(Ok(ok)) if ok == expected => {}
                got => {
                    panic!("unexpected result, got: {:?}, wanted: Ready(Ok({:?}))", got, expected)
                }
            }
        };
    }
assert_poll_ok!(dst.as_mut().poll_write(&mut cx, &[]), 0);
assert_poll_ok!(dst.as_mut().poll_write_vectored(&mut cx, &[]), 0);
assert_poll_ok!(dst.as_mut().poll_write(&mut cx, &[1, 1, 1]), 2);
assert_poll_ok!(dst.as_mut().poll_write_vectored(&mut cx, bufs), 2);
assert_poll_ok!(dst.as_mut().poll_write_vectored(&mut cx, bufs), 1);
assert_poll_ok!(dst.as_mut().poll_write_vectored(&mut cx, bufs), 3);
