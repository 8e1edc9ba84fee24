// Where the proved code stands: the static library, as tools/x86-64.sh copies it.
use std::path::Path;

fn main() {
    let bench = std::env::var("CARGO_MANIFEST_DIR").expect("cargo says where the bench stands");
    let root = Path::new(&bench)
        .parent()
        .expect("the bench stands in the repository");
    let library = root.join("target/staticlib");
    println!("cargo:rustc-link-search=native={}", library.display());
    println!("cargo:rustc-link-lib=static=driver");
    println!(
        "cargo:rerun-if-changed={}",
        library.join("libdriver.a").display()
    );
}
