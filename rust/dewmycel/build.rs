// Where libdewmycel.a is: the folder that DEWMYCEL_LIB names, or else target/staticlib of this repository.
fn main() {
    println!("cargo:rerun-if-env-changed=DEWMYCEL_LIB");
    let folder = std::env::var("DEWMYCEL_LIB").unwrap_or_else(|_| {
        let here = std::env::var("CARGO_MANIFEST_DIR").expect("cargo sets CARGO_MANIFEST_DIR");
        format!("{here}/../../target/staticlib")
    });
    println!("cargo:rustc-link-search=native={folder}");
    println!("cargo:rustc-link-lib=static=dewmycel");
}
