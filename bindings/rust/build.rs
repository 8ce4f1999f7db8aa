//! Links the proved library, which `tests/native-lib exports` writes for this machine.
use std::path::Path;

fn main() {
    let folder = Path::new(env!("CARGO_MANIFEST_DIR")).join("../../target/native");
    let library = folder.join("libexports.a");
    println!("cargo:rerun-if-changed={}", library.display());
    if !library.is_file() {
        panic!("{} is missing: run 'tests/native-lib exports' in the repository first", library.display());
    }
    println!("cargo:rustc-link-search=native={}", folder.display());
    println!("cargo:rustc-link-lib=static=exports");
}
