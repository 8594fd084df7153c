//! Writes the example's tables anew, `cargo run --bin recipe_tables`; or prints them with the fault of
//! a number, for the example's tests, `cargo run --bin recipe_tables -- NUMBER`.
#![forbid(unsafe_code)]

use chamrolak_rules::example::{header, header_with_fault};

fn main() -> std::io::Result<()> {
    let number = std::env::args().nth(1);
    let Some(number) = number.map(|number| number.parse().expect("a number")) else {
        let path = concat!(
            env!("CARGO_MANIFEST_DIR"),
            "/../../examples/recipe_tables.h"
        );
        return std::fs::write(path, header());
    };
    let text = header_with_fault(number).expect("2, 5, or 10 to 17");
    print!("{text}");
    Ok(())
}
