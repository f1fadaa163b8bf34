//! Links the proved calls (`libemt.a`) where a feature asks for them.
//! The library's folder comes from outside so that this package names no place of the main code.

fn main() {
    println!("cargo:rerun-if-env-changed=EMT_LIB_DIR");
    if std::env::var_os("CARGO_FEATURE_READ").is_none() {
        return;
    }
    let folder = std::env::var("EMT_LIB_DIR").expect("EMT_LIB_DIR must name the folder of libemt.a");
    println!("cargo:rerun-if-changed={folder}/libemt.a");
    println!("cargo:rustc-link-search=native={folder}");
    println!("cargo:rustc-link-lib=static=emt");
}
