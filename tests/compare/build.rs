//! With the feature `linked`: links the archive or shared library that MPM_ARCHIVE names.

fn main() {
    println!("cargo:rerun-if-env-changed=MPM_ARCHIVE");
    if std::env::var_os("CARGO_FEATURE_LINKED").is_none() {
        return;
    }
    let Ok(archive) = std::env::var("MPM_ARCHIVE") else {
        println!("cargo:warning=MPM_ARCHIVE names no archive; the engine's symbols will be missing");
        return;
    };
    let path = std::fs::canonicalize(&archive).unwrap_or_else(|_| archive.into());
    println!("cargo:rerun-if-changed={}", path.display());
    println!("cargo:rustc-link-arg={}", path.display());
}
