//! Lets the program find the library where it runs, as the crate finds it to link.

fn main() {
    println!("cargo:rerun-if-env-changed=SWAP_PARTY_LIB");
    if let Ok(folder) = std::env::var("SWAP_PARTY_LIB") {
        println!("cargo:rustc-link-arg=-Wl,-rpath,{folder}");
    }
}
