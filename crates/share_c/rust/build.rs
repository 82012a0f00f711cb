//! Links the static library, which has to be there: `rt lib` in crates/share_c writes it.

use std::path::Path;

fn main() {
    let folder = Path::new(env!("CARGO_MANIFEST_DIR")).join("../out");
    let library = folder.join("libshare_c.a");
    if !library.exists() {
        panic!("{} is not there: run `rt lib` in crates/share_c first", library.display());
    }
    println!("cargo:rerun-if-changed={}", library.display());
    println!("cargo:rustc-link-search=native={}", folder.display());
    println!("cargo:rustc-link-lib=static=share_c");
}
