//! With the feature `linked`, hands the repository's static library to the linker of the binaries.
//! AQFP_LIBRARY names another archive, for trying the binaries on another build of the calls.

use std::env;
use std::path::PathBuf;

fn main() {
    println!("cargo:rerun-if-env-changed=AQFP_LIBRARY");
    if env::var_os("CARGO_FEATURE_LINKED").is_none() {
        return;
    }
    let archive = match env::var_os("AQFP_LIBRARY") {
        Some(path) => PathBuf::from(path),
        None => {
            let here = PathBuf::from(env::var_os("CARGO_MANIFEST_DIR").expect("set by cargo"));
            here.join("../../target/staticlib/libaqfp.a")
        }
    };
    println!("cargo:rerun-if-changed={}", archive.display());
    println!("cargo:rustc-link-arg-bin=compare={}", archive.display());
    println!("cargo:rustc-link-arg-bin=bench={}", archive.display());
}
