//! Links the proved archive where it is asked for, and builds again when the archive has changed.

use std::{env, path::Path};

fn main() {
    println!("cargo:rerun-if-env-changed=HOST_ARCHIVES");
    if env::var_os("CARGO_FEATURE_ARCHIVE").is_none() {
        return;
    }
    let folder = env::var("HOST_ARCHIVES").expect("HOST_ARCHIVES: the folder of libnorthbound.a (env.sh sets it)");
    println!("cargo:rerun-if-changed={}", Path::new(&folder).join("libnorthbound.a").display());
    println!("cargo:rustc-link-search=native={folder}");
    println!("cargo:rustc-link-lib=static=northbound");
}
