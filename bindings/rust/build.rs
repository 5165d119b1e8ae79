//! Links the static library. `NODDREFIL_LIB_DIR` names the folder that has libmc_c.a and liblibc_c.a; without it, `lib` at the repository's top.
use std::env;

fn main() {
    let own = concat!(env!("CARGO_MANIFEST_DIR"), "/../../lib");
    let folder = env::var("NODDREFIL_LIB_DIR").unwrap_or_else(|_| own.to_string());
    println!("cargo:rustc-link-search=native={folder}");
    println!("cargo:rustc-link-lib=static=mc_c");
    println!("cargo:rustc-link-lib=static=libc_c");
    println!("cargo:rerun-if-env-changed=NODDREFIL_LIB_DIR");
}
