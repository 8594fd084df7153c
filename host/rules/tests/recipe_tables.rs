//! The example's tables in examples/ are the ones that its grammar gives.

use chamrolak_rules::example::header;

#[test]
fn the_examples_tables_are_current() {
    let stored = include_str!("../../../examples/recipe_tables.h");
    assert!(
        stored == header(),
        "make them anew: cargo run --bin recipe_tables"
    );
}
