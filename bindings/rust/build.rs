//! Links the library that `rt lib` makes of `crates/mlu_c`, and the allocator of the toolchain.

use std::env;
use std::path::PathBuf;

fn main() {
    let manifest = PathBuf::from(env::var("CARGO_MANIFEST_DIR").unwrap());
    let built = manifest
        .join("../..")
        .canonicalize()
        .unwrap_or(manifest)
        .join("crates/mlu_c/out");
    let library = env::var("MLU_LIBRARY").map_or(built, PathBuf::from);
    let kit = PathBuf::from(env::var("RATTLE_KIT").unwrap_or("/opt/rattle".into())).join("c");
    for (folder, file, how) in [
        (
            &library,
            "libmlu_c.a",
            "build it by `(cd crates/mlu_c && rt lib)`, or name its folder in MLU_LIBRARY",
        ),
        (&kit, "liblibc_c.a", "name the toolchain's folder in RATTLE_KIT"),
    ] {
        let file = folder.join(file);
        println!("cargo::rerun-if-changed={}", file.display());
        if !file.exists() {
            println!("cargo::error={} is missing: {how}", file.display());
            return;
        }
        println!("cargo::rustc-link-search=native={}", folder.display());
    }
    println!("cargo::rerun-if-env-changed=MLU_LIBRARY");
    println!("cargo::rerun-if-env-changed=RATTLE_KIT");
    println!("cargo::rustc-link-lib=static=mlu_c");
    println!("cargo::rustc-link-lib=static=libc_c");
}
