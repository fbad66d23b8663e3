//! Links librtdb.a: that of the folder which RTDB_LIB_DIR names, or else that of the folder above the crate, where
//! `./rtdb-library FOLDER` leaves both.
use std::env;
use std::path::PathBuf;

fn main() {
    println!("cargo:rerun-if-env-changed=RTDB_LIB_DIR");
    let given = env::var_os("RTDB_LIB_DIR").map(PathBuf::from);
    let own = env::var_os("CARGO_MANIFEST_DIR").map(|f| PathBuf::from(f).join(".."));
    let folder = given.or(own).unwrap_or_default();
    let archive = folder.join("librtdb.a");
    if !archive.is_file() {
        println!("cargo:warning=set RTDB_LIB_DIR to the folder of librtdb.a");
        std::process::exit(1);
    }
    println!("cargo:rerun-if-changed={}", archive.display());
    println!("cargo:rustc-link-search=native={}", folder.display());
    println!("cargo:rustc-link-lib=static=rtdb");
}
