//! Links the library from the folder that MAKXIRUND_LIB names.

use std::{env, path::PathBuf};

fn main() {
    println!("cargo:rerun-if-env-changed=MAKXIRUND_LIB");
    let Some(folder) = env::var_os("MAKXIRUND_LIB").map(PathBuf::from) else {
        panic!("Set MAKXIRUND_LIB to the folder that holds libmakxirund.a.");
    };
    let archive = folder.join("libmakxirund.a");
    if !archive.is_file() {
        panic!(
            "MAKXIRUND_LIB names {}, but there is no libmakxirund.a in it.",
            folder.display()
        );
    }
    println!("cargo:rerun-if-changed={}", archive.display());
    println!("cargo:rustc-link-search=native={}", folder.display());
    println!("cargo:rustc-link-lib=static=makxirund");
}
