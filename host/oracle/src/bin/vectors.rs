//! Writes the stored list anew: `cargo run --bin vectors`.
#![forbid(unsafe_code)]

use chamrolak_oracle::stored::{stored_list, HEAD};

fn main() -> std::io::Result<()> {
    let list = stored_list();
    let path = concat!(env!("CARGO_MANIFEST_DIR"), "/../vectors/oracle.txt");
    std::fs::write(path, format!("{HEAD}{}", list.to_text()))?;
    let (tables, cases) = (list.tables.len(), list.cases.len());
    println!("vectors: {cases} cases over {tables} tables");
    Ok(())
}
