//! Says where `libpankholim.a` is: in `PANKHOLIM_LIB_DIR`, or where `bash tools/build library` writes it.

use std::env;
use std::path::PathBuf;

fn main() {
    println!("cargo:rerun-if-env-changed=PANKHOLIM_LIB_DIR");
    let directory = match env::var_os("PANKHOLIM_LIB_DIR") {
        Some(directory) => PathBuf::from(directory),
        None => PathBuf::from(env::var_os("CARGO_MANIFEST_DIR").expect("cargo sets it"))
            .join("../../target/staticlib"),
    };
    println!(
        "cargo:rerun-if-changed={}",
        directory.join("libpankholim.a").display()
    );
    println!("cargo:rustc-link-search=native={}", directory.display());
    println!("cargo:rustc-link-lib=static=pankholim");
}
