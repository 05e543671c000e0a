//! Links the objects that MPM_OBJECTS names, parted by colons: the engine, the plain version, the stack probe, and
//! with the feature `before` an earlier engine and this one once more.

fn main() {
    println!("cargo:rerun-if-env-changed=MPM_OBJECTS");
    for path in std::env::var("MPM_OBJECTS").unwrap_or_default().split(':') {
        println!("cargo:rerun-if-changed={path}");
        println!("cargo:rustc-link-arg={path}");
    }
}
