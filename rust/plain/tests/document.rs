//! The plain implementation on every worked book of document 01, and on the edge cases.

macro_rules! tests {
    ($($name:ident)*) => {
        $(#[test]
        fn $name() {
            tried::$name(&mut cases::PlainEntries);
        })*
    };
}

mod worked {
    use cases::worked as tried;
    cases::worked_cases!(tests);
}

mod edges {
    use cases::edges as tried;
    cases::edge_cases!(tests);
}
