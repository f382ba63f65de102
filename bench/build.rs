//! Links the proved static library, which `tools/library` writes.

fn main() {
    let root = std::path::PathBuf::from(
        std::env::var("CARGO_MANIFEST_DIR").expect("cargo names the crate's folder"),
    )
    .join("..");
    let library = root.join("target/staticlib");
    println!("cargo:rustc-link-search=native={}", library.display());
    println!("cargo:rustc-link-lib=static=yoktvarim");
    println!(
        "cargo:rerun-if-changed={}",
        library.join("libyoktvarim.a").display()
    );
}
