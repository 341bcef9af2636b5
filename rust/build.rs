//! Links the proved archive of the repository, or the one in QUELBRIFT_ARCHIVE.
fn main() {
    let own = format!("{}/../target/staticlib", env!("CARGO_MANIFEST_DIR"));
    let folder = std::env::var("QUELBRIFT_ARCHIVE").unwrap_or(own);
    println!("cargo:rustc-link-search=native={folder}");
    println!("cargo:rustc-link-lib=static=quelbrift");
    println!("cargo:rerun-if-env-changed=QUELBRIFT_ARCHIVE");
    println!("cargo:rerun-if-changed={folder}/libquelbrift.a");
}
