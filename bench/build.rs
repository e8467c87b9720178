//! Links the static library that `rt lib` leaves in `crates/ts_bench/out`.

const FOLDER: &str = concat!(env!("CARGO_MANIFEST_DIR"), "/../crates/ts_bench/out");

fn main() {
    println!("cargo:rustc-link-search=native={FOLDER}");
    println!("cargo:rustc-link-lib=static=ts_bench");
    println!("cargo:rustc-link-lib=crypto");
    println!("cargo:rerun-if-changed={FOLDER}/libts_bench.a");
}
