// A block's definition is found in the block alone. The nearest one wins.
fn numbers() -> [i32; 3] {
    macro_rules! m { () => { 1 } }
    let one = m!();
    let two = {
        macro_rules! m { () => { 2 } }
        m!()
    };
    [one, two, m!()]
}
