//! Links the library where SWAP_PARTY_LIB names its folder, or where the linker finds it.

fn main() {
    println!("cargo:rerun-if-env-changed=SWAP_PARTY_LIB");
    if let Ok(folder) = std::env::var("SWAP_PARTY_LIB") {
        println!("cargo:rustc-link-search=native={folder}");
        println!("cargo:rustc-link-arg=-Wl,-rpath,{folder}");
    }
    println!("cargo:rustc-link-lib=dylib=swap_party");
}
