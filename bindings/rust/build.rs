//! Links the proved library: `libsmyrilox.a`, from the folder named by SMYRILOX_LIB or from the repository's `target/bindings`.

use std::{env, path::PathBuf};

fn main() {
    println!("cargo:rerun-if-env-changed=SMYRILOX_LIB");
    let folder = match env::var_os("SMYRILOX_LIB") {
        Some(named) => PathBuf::from(named),
        None => PathBuf::from(env::var_os("CARGO_MANIFEST_DIR").unwrap()).join("../../target/bindings"),
    };
    let library = folder.join("libsmyrilox.a");
    println!("cargo:rerun-if-changed={}", library.display());
    if !library.is_file() {
        panic!(
            "there is no libsmyrilox.a in {}: build it with `bindings/build`, or name its folder in SMYRILOX_LIB",
            folder.display()
        );
    }
    println!("cargo:rustc-link-search=native={}", folder.display());
    println!("cargo:rustc-link-lib=static=smyrilox");
}
