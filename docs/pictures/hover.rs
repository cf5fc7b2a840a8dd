macro_rules! point {
    ($x:expr, $y:expr) => { Point { x: $x, y: $y } };
    (origin) => { Point { x: 0, y: 0 } };
}

fn main() {
    let end = point!(3 4);
    let start = point!(origin);
}
