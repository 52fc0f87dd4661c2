//! Links the port, and links it again when it has changed.

use std::env;

fn main() {
    println!("cargo:rerun-if-changed=build.rs");
    for name in ["PORT_LIBRARY", "C_LIBRARY"] {
        let path = env::var(name).expect("bench/run says where the library is");
        println!("cargo:rerun-if-env-changed={name}");
        println!("cargo:rerun-if-changed={path}");
        println!("cargo:rustc-link-arg={path}");
    }
}
