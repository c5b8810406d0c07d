//! Links libFuzzer from the folder of clang's runtime that CLANG_RUNTIME names.

fn main() {
    println!("cargo:rerun-if-env-changed=CLANG_RUNTIME");
    let folder = std::env::var("CLANG_RUNTIME").expect("CLANG_RUNTIME names a folder");
    println!("cargo:rustc-link-search=native={folder}");
    println!("cargo:rustc-link-lib=static=clang_rt.fuzzer-x86_64");
    println!("cargo:rustc-link-lib=stdc++");
}
