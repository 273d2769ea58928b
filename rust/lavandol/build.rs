//! Links the static library that `tools/built lavandol` makes; LAVANDOL_DIR names another folder that has one.

fn main() {
    let here = std::env::var("CARGO_MANIFEST_DIR").unwrap();
    let folder = std::env::var("LAVANDOL_DIR").unwrap_or(format!("{here}/../../crates/lavandol/out"));
    println!("cargo:rerun-if-env-changed=LAVANDOL_DIR");
    println!("cargo:rerun-if-changed={folder}/liblavandol.a");
    println!("cargo:rustc-link-search=native={folder}");
    println!("cargo:rustc-link-lib=static=lavandol");
}
