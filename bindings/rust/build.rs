//! Links the static library from the directory that MOTIKHUND_LIB names, else from the repository's `target/staticlib`.

use std::env;
use std::path::Path;

fn main() {
    let here = env::var_os("CARGO_MANIFEST_DIR").expect("cargo names the package's directory");
    let named = env::var_os("MOTIKHUND_LIB").unwrap_or_else(|| "../../target/staticlib".into());
    // A relative path is taken from the package's directory, wherever the linker is started.
    let directory = Path::new(&here).join(named);
    let library = directory.join("libmotikhund.a");
    println!("cargo:rerun-if-env-changed=MOTIKHUND_LIB");
    println!("cargo:rerun-if-changed={}", library.display());
    assert!(library.is_file(), "no {}: make it with `bindings/archive`, or set MOTIKHUND_LIB", library.display());
    println!("cargo:rustc-link-search=native={}", directory.display());
    println!("cargo:rustc-link-lib=static=motikhund");
}
