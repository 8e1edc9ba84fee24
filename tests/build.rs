// Where the proved code stands: the static library, as tools/x86-64.sh copies it. libmurmurhash is Debian's.
use std::path::Path;

fn main() {
    let tests = std::env::var("CARGO_MANIFEST_DIR").expect("cargo says where the tests stand");
    let root = Path::new(&tests)
        .parent()
        .expect("the tests stand in the repository");
    let library = root.join("target/staticlib");
    println!("cargo:rustc-link-search=native={}", library.display());
    println!("cargo:rustc-link-lib=static=driver");
    println!("cargo:rustc-link-lib=dylib=murmurhash");
    println!(
        "cargo:rerun-if-changed={}",
        library.join("libdriver.a").display()
    );
}
