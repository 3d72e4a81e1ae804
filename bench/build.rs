// Links the archives that tools/archive writes, each to the program of the same measure.
fn main() {
    let root = std::env::var("CARGO_MANIFEST_DIR").unwrap();
    for (program, library) in [("sha1", "sha1"), ("entry", "hbc")] {
        let archive = format!("{root}/../target/staticlib/lib{library}.a");
        println!("cargo:rerun-if-changed={archive}");
        println!("cargo:rustc-link-arg-bin={program}={archive}");
    }
}
