//! Links the library and the plain C station that `bench/run` names, and links anew when one of them changes.

use std::env;

fn main() {
    for name in ["LLINKHIRO_ARCHIVE", "LLINKHIRO_PLAIN"] {
        let file = env::var(name).unwrap_or_else(|_| panic!("{name} names no file: start bench/run"));
        println!("cargo:rerun-if-env-changed={name}");
        println!("cargo:rerun-if-changed={file}");
        println!("cargo:rustc-link-arg={file}");
    }
}
