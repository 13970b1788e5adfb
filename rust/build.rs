// Finds the archive: in OALEDVA_LIB (an absolute path) if it is set, else where `make library` writes it.
fn main() {
    println!("cargo:rerun-if-env-changed=OALEDVA_LIB");
    let folder = match std::env::var("OALEDVA_LIB") {
        Ok(folder) if !folder.is_empty() => folder,
        _ => concat!(env!("CARGO_MANIFEST_DIR"), "/../target/lib").into(),
    };
    // Cargo and rustc would each begin a relative path at another folder.
    assert!(std::path::Path::new(&folder).is_absolute(), "OALEDVA_LIB is {folder}, and must be an absolute path");
    println!("cargo:rerun-if-changed={folder}/liboaledva.a");
    if !std::path::Path::new(&folder).join("liboaledva.a").exists() {
        println!(
            "cargo:warning={folder}/liboaledva.a is missing: run `make library`, or set OALEDVA_LIB to its folder"
        );
    }
    println!("cargo:rustc-link-search=native={folder}");
}
