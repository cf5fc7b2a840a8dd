// Definitions and calls of macros cut out of itertools-0.10.3, which is licensed as MIT/Apache-2.0.

// from benches/tree_fold1.rs
macro_rules! def_benchs {
    ($N:expr,
     $FUN:ident,
     $BENCH_NAME:ident,
     ) => (
        mod $BENCH_NAME {
            use super::*;

            pub fn sum(c: &mut Criterion) {
                let v: Vec<u32> = (0.. $N).collect();

                c.bench_function(&(stringify!($BENCH_NAME).replace('_', " ") + " sum"), move |b| {
                    b.iter(|| {
                        cloned(&v).$FUN(|x, y| x + y)
                    })
                });
            }

            pub fn complex_iter(c: &mut Criterion) {
                let u = (3..).take($N / 2);
                let v = (5..).take($N / 2);
                let it = u.chain(v);

                c.bench_function(&(stringify!($BENCH_NAME).replace('_', " ") + " complex iter"), move |b| {
                    b.iter(|| {
                        it.clone().map(|x| x as f32).$FUN(f32::atan2)
                    })
                });
            }

            pub fn string_format(c: &mut Criterion) {
                // This goes quadratic with linear `fold1`, so use a smaller
                // size to not waste too much time in travis.  The allocations
                // in here are so expensive anyway that it'll still take
                // way longer per iteration than the other two benchmarks.
                let v: Vec<u32> = (0.. ($N/4)).collect();

                c.bench_function(&(stringify!($BENCH_NAME).replace('_', " ") + " string format"), move |b| {
                    b.iter(|| {
                        cloned(&v).map(|x| x.to_string()).$FUN(|x, y| format!("{} + {}", x, y))
                    })
                });
            }
        }

        criterion_group!(
            $BENCH_NAME,
            $BENCH_NAME::sum,
            $BENCH_NAME::complex_iter,
            $BENCH_NAME::string_format,
        );
    )
}
def_benchs!{
    10_000,
    fold1,
    fold1_10k,
}
def_benchs!{
    10_000,
    tree_fold1,
    tree_fold1_stack_10k,
}
def_benchs!{
    10_000,
    tree_fold1_vec,
    tree_fold1_vec_10k,
}
def_benchs!{
    100,
    fold1,
    fold1_100,
}
def_benchs!{
    100,
    tree_fold1,
    tree_fold1_stack_100,
}
def_benchs!{
    100,
    tree_fold1_vec,
    tree_fold1_vec_100,
}

// from tests/test_std.rs
macro_rules! generic_test {
    ($f:ident, $($t:ty),+) => {
        $(paste::item! {
            qc::quickcheck! {
                fn [< $f _ $t >](i: RandIter<$t>, k: u16) -> () {
                    $f(i, k)
                }
            }
        })+
    };
}
generic_test!(k_smallest_sort, u8, u16, u32, u64, i8, i16, i32, i64);
