// Links libr6501q.a: from the folder that R6501Q_LIBRARY names, which must be absolute, else from the repository's
// crates/r6501q/out.
use std::env;
use std::path::{Path, PathBuf};

const LIBRARY: &str = "libr6501q.a";

// The folder that the library lies in. An empty name counts as none.
fn folder() -> PathBuf {
    let named = env::var_os("R6501Q_LIBRARY").filter(|name| !name.is_empty());
    if let Some(named) = named.map(PathBuf::from) {
        if !named.is_absolute() {
            panic!("R6501Q_LIBRARY: {} is no absolute path", named.display());
        }
        return named;
    }
    let package = env::var_os("CARGO_MANIFEST_DIR").expect("cargo names the package's folder");
    Path::new(&package).join("../../crates/r6501q/out")
}

fn main() {
    println!("cargo:rerun-if-env-changed=R6501Q_LIBRARY");
    let folder = folder();
    let library = folder.join(LIBRARY);
    println!("cargo:rerun-if-changed={}", library.display());
    if !library.is_file() {
        panic!(
            "{} is not there: run `rt lib` in crates/r6501q, or set R6501Q_LIBRARY to its folder",
            library.display()
        );
    }
    let folder = folder.canonicalize().expect("the folder was just found");
    println!("cargo:rustc-link-search=native={}", folder.display());
    println!("cargo:rustc-link-lib=static=r6501q");
}
