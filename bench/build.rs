//! Links the product, but only where the feature `product` asks for it.

use std::env;
use std::path::Path;
use std::process::exit;

/// The folder that an environment variable names, or an error that says what it should hold.
fn folder(variable: &str, library: &str) -> String {
    println!("cargo:rerun-if-env-changed={variable}");
    let Ok(folder) = env::var(variable) else {
        eprintln!("error: the feature `product` needs the environment variable {variable}:");
        eprintln!("       set it to the folder that has {library}, for instance");
        eprintln!("       {variable}=/path/to/folder cargo build --release --features product");
        exit(1);
    };
    let file = Path::new(&folder).join(library);
    if !file.is_file() {
        eprintln!("error: {variable} is set to {folder}, but there is no {library} in it");
        exit(1);
    }
    println!("cargo:rerun-if-changed={}", file.display());
    folder
}

fn main() {
    println!("cargo:rerun-if-changed=build.rs");
    if env::var_os("CARGO_FEATURE_PRODUCT").is_none() {
        return;
    }
    let product = folder("SHELFLINE_LIB", "libembed.a");
    println!("cargo:rustc-link-search=native={product}");
    // `-bundle` hands the library to the linker as it is.
    println!("cargo:rustc-link-lib=static:-bundle=embed");
}
