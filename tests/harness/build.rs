//! Links the static library with the job loader's call. HEZGOLT_LIB names its folder.

use std::env;
use std::path::PathBuf;

fn main() {
    println!("cargo:rerun-if-env-changed=HEZGOLT_LIB");
    let here =
        PathBuf::from(env::var("CARGO_MANIFEST_DIR").expect("cargo names the crate's folder"));
    let folder = env::var("HEZGOLT_LIB").unwrap_or_else(|_| String::from("../../target/staticlib"));
    let folder = here.join(folder);
    println!(
        "cargo:rerun-if-changed={}",
        folder.join("libloader.a").display()
    );
    println!("cargo:rustc-link-search=native={}", folder.display());
    println!("cargo:rustc-link-lib=static=loader");
}
