//! Links the library's archive: the one that `./build.sh` writes, or the one that the
//! environment variable CHAMROLAK_ARCHIVE names.

use std::path::PathBuf;

const VARIABLE: &str = "CHAMROLAK_ARCHIVE";
const MADE_BY_RT: &str = concat!(
    env!("CARGO_MANIFEST_DIR"),
    "/../../target/staticlib/libchamrolak.a"
);

fn main() {
    let named = std::env::var_os(VARIABLE);
    let archive = named.map_or(PathBuf::from(MADE_BY_RT), PathBuf::from);
    println!("cargo:rerun-if-env-changed={VARIABLE}");
    println!("cargo:rerun-if-changed={}", archive.display());
    if !archive.ends_with("libchamrolak.a") || !archive.is_file() {
        println!(
            "cargo:warning=There is no library at {}. Make it with `./build.sh`, or \
             name a file libchamrolak.a in {VARIABLE}.",
            archive.display()
        );
        std::process::exit(1);
    }
    let folder = archive.parent().expect("a file stands in a folder");
    println!("cargo:rustc-link-search=native={}", folder.display());
    println!("cargo:rustc-link-lib=static=chamrolak");
}
