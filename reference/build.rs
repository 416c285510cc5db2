//! The proved library is linked into the runs: a new archive makes them be built anew.

fn main() {
    println!("cargo:rerun-if-changed=build.rs");
    if std::env::var_os("CARGO_FEATURE_LIBRARY").is_some() {
        println!("cargo:rerun-if-changed=../target/staticlib/libcapi.a");
        println!("cargo:rerun-if-changed=../target/staticlib/libcapi_explain.a");
        println!("cargo:rerun-if-changed=../target/staticlib/libcapi_rack.a");
    }
}
