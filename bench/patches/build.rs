// Links the archive that tools/archive writes of crate hbc_c.
fn main() {
    let root = std::env::var("CARGO_MANIFEST_DIR").unwrap();
    let archive = format!("{root}/../../target/staticlib/libhbc.a");
    println!("cargo:rerun-if-changed={archive}");
    println!("cargo:rustc-link-arg={archive}");
}
