// One fault of each kind that a text can have under the program's grammar.
macro_rules! digit { (1) => { one } }
digit!(2);

macro_rules! invalid { () }
invalid!();

macro_rules! again { () => { again!() } }
again!();

mod inner { macro_rules! local { () => { } } }
