//! With the feature `library`, links the archive libdewmycel.a from the folder that DEWMYCEL_LIB names.
fn main() {
    println!("cargo:rerun-if-env-changed=DEWMYCEL_LIB");
    if std::env::var_os("CARGO_FEATURE_LIBRARY").is_some() {
        let folder =
            std::env::var("DEWMYCEL_LIB").expect("DEWMYCEL_LIB names a folder with libdewmycel.a");
        println!("cargo:rerun-if-changed={folder}/libdewmycel.a");
        println!("cargo:rustc-link-search=native={folder}");
        println!("cargo:rustc-link-lib=static=dewmycel");
    }
}
