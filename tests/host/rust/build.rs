//! Links the static library, with the feature `earlier` an earlier one too, and the guarded strings. Their folders are given by the
//! environment.

use std::env::var;

fn main() {
    let mut linked =
        vec![("FILMDISK_LIBRARY_DIR", "filmdisk"), ("FILMDISK_GUARDED_DIR", "guarded")];
    if var("CARGO_FEATURE_EARLIER").is_ok() {
        linked.push(("FILMDISK_EARLIER_DIR", "earlier"));
    }
    for (folder, library) in linked {
        let path = var(folder).unwrap_or_else(|_| panic!("{folder} is not set"));
        println!("cargo:rerun-if-env-changed={folder}");
        println!("cargo:rerun-if-changed={path}/lib{library}.a");
        println!("cargo:rustc-link-search=native={path}");
        println!("cargo:rustc-link-lib=static={library}");
    }
}
