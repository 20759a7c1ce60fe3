// Links the verified library where VERIFIED_LIB names its static library file (lib*.a). VERIFIED_LIBS names further libraries that it
// needs, parted by commas. Without VERIFIED_LIB everything builds, and the verified library is absent.
use std::path::Path;

fn main() {
    println!("cargo:rustc-check-cfg=cfg(verified)");
    println!("cargo:rerun-if-changed=build.rs");
    println!("cargo:rerun-if-env-changed=VERIFIED_LIB");
    println!("cargo:rerun-if-env-changed=VERIFIED_LIBS");
    let Ok(lib) = std::env::var("VERIFIED_LIB") else { return };
    if lib.is_empty() {
        return;
    }
    let path = Path::new(&lib)
        .canonicalize()
        .unwrap_or_else(|e| panic!("VERIFIED_LIB {lib}: {e}"));
    let name = path.file_name().unwrap().to_str().unwrap();
    let Some(short) = name.strip_prefix("lib").and_then(|n| n.strip_suffix(".a")) else {
        panic!("VERIFIED_LIB must be a file lib*.a, not {name}");
    };
    println!("cargo:rustc-link-search=native={}", path.parent().unwrap().display());
    println!("cargo:rustc-link-lib=static={short}");
    println!("cargo:rerun-if-changed={}", path.display());
    if let Ok(more) = std::env::var("VERIFIED_LIBS") {
        for l in more.split(',').filter(|l| !l.is_empty()) {
            println!("cargo:rustc-link-lib={l}");
        }
    }
    println!("cargo:rustc-cfg=verified");
}
