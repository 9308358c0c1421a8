//! Links what the environment variable LINKED names, files with a space between: the proved code's objects and the
//! peers' libraries.

use std::env;

fn main() {
    println!("cargo::rerun-if-env-changed=LINKED");
    for file in env::var("LINKED").unwrap_or_default().split_whitespace() {
        println!("cargo::rerun-if-changed={file}");
        println!("cargo::rustc-link-arg={file}");
        if let Some((folder, _)) = file.rsplit_once('/').filter(|_| file.contains(".so")) {
            println!("cargo::rustc-link-arg=-Wl,-rpath,{folder}");
        }
    }
}
