// Links VICE's core as tests/peers/build has left it, where it is asked for.
use std::path::Path;

fn main() {
    if std::env::var_os("CARGO_FEATURE_VICE").is_none() {
        return;
    }
    let package = std::env::var_os("CARGO_MANIFEST_DIR").expect("cargo names the package's folder");
    let folder = Path::new(&package).join("../../target/peers/build");
    println!("cargo:rerun-if-changed={}", folder.join("libpeer.a").display());
    println!("cargo:rustc-link-search=native={}", folder.display());
    println!("cargo:rustc-link-lib=static=peer");
}
