// What stays may take its argument for mere tokens, so no fault is told of the calls in it that fit no rule.
macro_rules! digit { (1) => { "one" } }
fn tokens() {
    quote!(digit!(#number), digit!(1));
}
