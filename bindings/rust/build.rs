//! Links libhouayletan.a, which `bash tools/archive.sh` makes: from the folder that HOUAYLETAN_LIB names, or from the
//! repository's target/staticlib.
use std::path::PathBuf;

fn main() {
    let here = PathBuf::from(std::env::var("CARGO_MANIFEST_DIR").unwrap());
    let folder = match std::env::var_os("HOUAYLETAN_LIB") {
        Some(folder) => here.join(folder),
        None => here.join("../../target/staticlib"),
    };
    let archive = folder.join("libhouayletan.a");
    if !archive.is_file() {
        panic!("{} is not there: `bash tools/archive.sh` makes it; HOUAYLETAN_LIB may name another folder", archive.display());
    }
    println!("cargo:rustc-link-search=native={}", folder.display());
    println!("cargo:rustc-link-lib=static=houayletan");
    println!("cargo:rerun-if-env-changed=HOUAYLETAN_LIB");
    println!("cargo:rerun-if-changed={}", archive.display());
}
