//! Says where the proved library lies.

fn main() {
    println!("cargo:rerun-if-changed=../../crates/lockgraph_c/out/liblockgraph_c.a");
    let here = std::env::var("CARGO_MANIFEST_DIR").expect("set by cargo");
    println!("cargo:rustc-link-search=native={here}/../../crates/lockgraph_c/out");
}
