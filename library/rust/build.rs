// Links libmcf.a, which lies in the folder that MCF_LIB_DIR names, and else in bin/ of the repository.
fn main() {
    let dir = std::env::var("MCF_LIB_DIR").unwrap_or_else(|_| format!("{}/../../bin", std::env::var("CARGO_MANIFEST_DIR").unwrap()));
    println!("cargo:rustc-link-search=native={dir}");
    println!("cargo:rustc-link-lib=static=mcf");
    println!("cargo:rerun-if-env-changed=MCF_LIB_DIR");
}
