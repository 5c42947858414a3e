//! Links the static library. `bindings/build` makes it; `PUNGWELAIR_LIB` names another folder that has it, as the one where
//! `bindings/install` puts it. If it is missing a warning says so, and the crate is checked and documented all the same. A
//! linker fails, by a name that says what to do, since a warning of a dependency isn't shown.

const MISSING: &str = "pungwelair_of_bindings_build_or_PUNGWELAIR_LIB";

fn main() {
    println!("cargo:rerun-if-env-changed=PUNGWELAIR_LIB");
    let made = std::env::var("PUNGWELAIR_LIB").unwrap_or_else(|_| format!("{}/../out", env!("CARGO_MANIFEST_DIR")));
    println!("cargo:rustc-link-search=native={made}");
    let file = format!("{made}/libpungwelair.a");
    println!("cargo:rerun-if-changed={file}");
    if std::path::Path::new(&file).exists() {
        println!("cargo:rustc-link-lib=static=pungwelair");
    } else {
        println!("cargo:warning=no {file}: run bindings/build of Pungwelair's repository, or name its folder by PUNGWELAIR_LIB");
        println!("cargo:rustc-link-lib=dylib={MISSING}");
    }
}
