//! Says where the static library is: CURLEWSONG_LIB, or the folder in which tools/build.sh leaves it.

fn main() {
    println!("cargo:rerun-if-env-changed=CURLEWSONG_LIB");
    let folder = std::env::var("CURLEWSONG_LIB").unwrap_or_else(|_| {
        let here = std::env::var("CARGO_MANIFEST_DIR").unwrap();
        format!("{here}/../../target/staticlib")
    });
    println!("cargo:rerun-if-changed={folder}/libcurlewsong.a");
    println!("cargo:rustc-link-search=native={folder}");
}
