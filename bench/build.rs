// Where the archive is: MOGEDORN_LIB, or the place where `make lib` puts it. An earlier archive, MOGEDORN_OLD, is taken in beside it under other names, its functions
// at multiples of 64 bytes as those of the other (one whose calls take an order, and that need not have join), and CUDD where libbrial-dev is installed.
use std::path::{Path, PathBuf};
use std::process::Command;

fn main() {
    let out = std::env::var("OUT_DIR").unwrap();
    let run = |program: &str, args: &[&str]| assert!(Command::new(program).args(args).status().unwrap().success(), "{program} failed");
    println!("cargo:rustc-link-search=native={out}");
    let dir = std::env::var("MOGEDORN_LIB").map(PathBuf::from).unwrap_or_else(|_| PathBuf::from(env!("CARGO_MANIFEST_DIR")).join("../target/staticlib"));
    println!("cargo:rerun-if-env-changed=MOGEDORN_LIB");
    println!("cargo:rerun-if-changed={}", dir.join("libcapi.a").display());
    println!("cargo:rerun-if-changed=cudd.c");
    println!("cargo:rustc-link-search=native={}", dir.display());
    println!("cargo:rustc-link-lib=static=capi");
    println!("cargo:rerun-if-env-changed=MOGEDORN_OLD");
    if let Ok(old) = std::env::var("MOGEDORN_OLD") {
        println!("cargo:rerun-if-changed={old}");
        let renamed = format!("{out}/libold.a");
        run("objcopy", &["--prefix-symbols=old_", "--set-section-alignment=.text.*=64", &old, &renamed]);
        run("objcopy", &["--redefine-sym", "old_memset=memset", &renamed]);
        println!("cargo:rustc-link-lib=static=old");
        println!("cargo:rustc-cfg=old");
    }
    if !Path::new("/usr/include/polybori/cudd/cuddInt.h").exists() {
        println!("cargo:warning=libbrial-dev is not installed: no comparison with CUDD");
        return;
    }
    run("cc", &["-O2", "-g", "-Wall", "-c", "cudd.c", "-o", &format!("{out}/cudd.o")]);
    run("ar", &["rcs", &format!("{out}/libcuddshim.a"), &format!("{out}/cudd.o")]);
    println!("cargo:rustc-link-lib=static=cuddshim");
    println!("cargo:rustc-link-lib=brial");
    println!("cargo:rustc-cfg=cudd");
}
