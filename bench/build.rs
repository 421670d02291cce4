// Links the archive that `bash tools/archive.sh` makes.
fn main() {
    let here = std::env::var("CARGO_MANIFEST_DIR").unwrap();
    println!("cargo:rustc-link-search=native={here}/../target/staticlib");
    println!("cargo:rustc-link-lib=static=houayletan");
    println!("cargo:rerun-if-changed={here}/../target/staticlib/libhouayletan.a");
}
