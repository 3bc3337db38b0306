//! Links the port: the static library that `tools/staticlib` writes.
fn main() {
    println!("cargo:rerun-if-env-changed=EXPORTS_FOLDER");
    let folder = std::env::var("EXPORTS_FOLDER").expect("EXPORTS_FOLDER: the folder of libexports.a");
    println!("cargo:rerun-if-changed={folder}/libexports.a");
    println!("cargo:rustc-link-search=native={folder}");
    println!("cargo:rustc-link-lib=static=exports");
}
