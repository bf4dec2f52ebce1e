// Where the archive is: MOGEDORN_LIB, or the place where `make lib` puts it.
use std::path::PathBuf;

fn main() {
    let dir = std::env::var("MOGEDORN_LIB").map(PathBuf::from).unwrap_or_else(|_| PathBuf::from(env!("CARGO_MANIFEST_DIR")).join("../../target/staticlib"));
    println!("cargo:rerun-if-env-changed=MOGEDORN_LIB");
    println!("cargo:rerun-if-changed={}", dir.join("libcapi.a").display());
    println!("cargo:rustc-link-search=native={}", dir.display());
    println!("cargo:rustc-link-lib=static=capi");
}
