//! Finds the static library that `tools/staticlib` writes: in the folder that CHAVRUPAS_LIB names, else in target/staticlib of this repository.
use std::env;
use std::path::PathBuf;

fn main() {
    println!("cargo:rerun-if-env-changed=CHAVRUPAS_LIB");
    let arch = env::var("CARGO_CFG_TARGET_ARCH").unwrap_or_default();
    let os = env::var("CARGO_CFG_TARGET_OS").unwrap_or_default();
    if (arch.as_str(), os.as_str()) != ("x86_64", "linux") {
        missing(&format!("the library is for x86-64 Linux, and this build is for {arch} {os}"));
    }
    let folder = match env::var_os("CHAVRUPAS_LIB") {
        Some(named) => PathBuf::from(named),
        None => PathBuf::from(env::var_os("CARGO_MANIFEST_DIR").unwrap()).join("../target/staticlib"),
    };
    let library = folder.join("libexports.a");
    println!("cargo:rerun-if-changed={}", library.display());
    if !library.is_file() {
        missing(&format!(
            "there is no {}: run `tools/staticlib` in the repository, or name the folder of libexports.a in CHAVRUPAS_LIB",
            library.display()
        ));
    }
    // cargo runs this in the crate's folder and rustc elsewhere
    let folder = folder.canonicalize().unwrap_or(folder);
    println!("cargo:rustc-link-search=native={}", folder.display());
    println!("cargo:rustc-link-lib=static=exports");
}

fn missing(what: &str) -> ! {
    eprintln!("chavrupas: {what}");
    std::process::exit(1)
}
