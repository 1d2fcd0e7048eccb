//! Links the static library of `out/c`, or of the folder that `HTTP_CACHE_SEMANTICS_DIR` names.
use std::env;
use std::path::PathBuf;

const ARCHIVE: &str = "libhttp_cache_semantics.a";

fn main() {
    println!("cargo:rerun-if-env-changed=HTTP_CACHE_SEMANTICS_DIR");
    let folder = match env::var_os("HTTP_CACHE_SEMANTICS_DIR") {
        Some(folder) => PathBuf::from(folder),
        None => PathBuf::from(env!("CARGO_MANIFEST_DIR")).join("../out/c"),
    };
    let archive = folder.join(ARCHIVE);
    if !archive.exists() {
        panic!("no {}; bin/library builds it", archive.display());
    }
    println!("cargo:rerun-if-changed={}", archive.display());
    println!("cargo:rustc-link-search=native={}", folder.display());
    println!("cargo:rustc-link-lib=static=http_cache_semantics");
}
