//! Links the static library that `tools/build.sh library` writes. The variable `TRUNK_LIB_DIR` names another folder that has
//! it; a relative one counts from this package's.
use std::path::Path;

fn main() {
    println!("cargo::rerun-if-env-changed=TRUNK_LIB_DIR");
    let named = std::env::var_os("TRUNK_LIB_DIR").unwrap_or("../target/staticlib".into());
    let folder = Path::new(env!("CARGO_MANIFEST_DIR")).join(named);
    let library = folder.join("libtrunk.a");
    println!("cargo::rerun-if-changed={}", library.display());
    if !library.is_file() {
        println!(
            "cargo::error={} is missing: run `tools/build.sh library` in the repository, or name its folder in TRUNK_LIB_DIR",
            library.display()
        );
        return;
    }
    println!("cargo::rustc-link-search=native={}", folder.display());
    println!("cargo::rustc-link-lib=static=trunk");
}
