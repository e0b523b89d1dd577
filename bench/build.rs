//! Links the library's archive, libcapi.a: a copy, in crates/capi_c/out, of what `rt lib` makes there.

use std::path::Path;

fn main() {
    let folder = Path::new(env!("CARGO_MANIFEST_DIR")).join("../crates/capi_c/out");
    let archive = folder.join("libcapi.a");
    println!("cargo:rerun-if-changed={}", archive.display());
    if !archive.exists() {
        eprintln!("crates/capi_c/out/libcapi.a is missing: in crates/capi_c, `rt lib && cp out/libcapi_c.a out/libcapi.a` makes it");
        std::process::exit(1);
    }
    println!("cargo:rustc-link-search=native={}", folder.display());
    println!("cargo:rustc-link-lib=static=capi");
}
