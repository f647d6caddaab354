//! Links the static library, and the kit's C functions that allocate, from the folders that TIMED_LIBRARY and HEAP_LIBRARY name.
fn link(variable: &str, library: &str) {
    let folder = std::env::var(variable).unwrap_or_else(|_| panic!("{variable} is the folder of lib{library}.a"));
    println!("cargo:rustc-link-search=native={folder}");
    println!("cargo:rustc-link-lib=static={library}");
    println!("cargo:rerun-if-changed={folder}/lib{library}.a");
    println!("cargo:rerun-if-env-changed={variable}");
}
fn main() {
    link("TIMED_LIBRARY", "timed");
    link("HEAP_LIBRARY", "libc_c");
}
