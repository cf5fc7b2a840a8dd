// Brackets of each kind end what is defined between them. rustc takes no definition in the last two.
fn numbers() {
    { macro_rules! m { () => { 1 } } m!{} }
    ( macro_rules! m { () => { 2 } } m!{} )
    [ macro_rules! m { () => { 3 } } m!{} ]
    m!{}
}
