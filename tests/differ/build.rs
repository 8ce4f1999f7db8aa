//! Links the proved library, which `tests/native-lib exports` writes for this machine.
use std::path::Path;

fn main() {
    let folder = Path::new(env!("CARGO_MANIFEST_DIR")).join("../../target/native");
    let library = folder.join("libexports.a");
    println!("cargo:rerun-if-changed={}", library.display());
    if !library.is_file() {
        panic!("{} is missing: run tests/native-lib exports first (./test does)", library.display());
    }
    println!("cargo:rustc-link-search=native={}", folder.display());
    println!("cargo:rustc-link-lib=static=exports");
    find_buddy();
}

/// The benchmark of the builders times BuDDy too where it is installed, in $BUDDY, /usr/local or /usr. Nothing else needs it.
fn find_buddy() {
    println!("cargo:rustc-check-cfg=cfg(buddy)");
    println!("cargo:rerun-if-env-changed=BUDDY");
    let named = std::env::var("BUDDY").unwrap_or_default();
    let place = [&named, "/usr/local", "/usr"].into_iter().find(|place| Path::new(place).join("include/bdd.h").is_file());
    if let Some(place) = place {
        println!("cargo:rustc-cfg=buddy");
        println!("cargo:rustc-link-arg-bin=bench_builders=-L{place}/lib");
        println!("cargo:rustc-link-arg-bin=bench_builders=-Wl,-rpath,{place}/lib");
        println!("cargo:rustc-link-arg-bin=bench_builders=-lbdd");
    }
}
