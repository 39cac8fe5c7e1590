// Links the static library of crates/plate_c, which needs nothing of the kit.
fn main() {
    let top = std::env::var("CARGO_MANIFEST_DIR").unwrap();
    println!("cargo:rerun-if-changed={top}/../crates/plate_c/out/libplate_c.a");
    println!("cargo:rustc-link-search=native={top}/../crates/plate_c/out");
    println!("cargo:rustc-link-lib=static=plate_c");
}
