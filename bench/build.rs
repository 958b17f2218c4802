//! Links the library that `rt lib` makes of crates/mlu_bench.

fn main() {
    let root = std::env::var("CARGO_MANIFEST_DIR").unwrap();
    let kit = std::env::var("RATTLE_KIT").unwrap_or("/opt/rattle".into());
    println!("cargo:rustc-link-search=native={root}/../crates/mlu_bench/out");
    println!("cargo:rustc-link-search=native={kit}/c");
    println!("cargo:rerun-if-changed={root}/../crates/mlu_bench/out/libmlu_bench.a");
}
