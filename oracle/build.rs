//! Links the proved code, where the environment variable PROVED names the folder of its objects.

use std::path::{Path, PathBuf};
use std::{env, fs, io};

fn main() {
    println!("cargo::rustc-check-cfg=cfg(proved)");
    println!("cargo::rerun-if-env-changed=PROVED");
    let Ok(folder) = env::var("PROVED") else {
        return;
    };
    println!("cargo::rerun-if-changed={folder}");
    match objects(Path::new(&folder)) {
        Err(why) => println!("cargo::error={folder}, which PROVED names: {why}"),
        Ok(objects) if objects.is_empty() => {
            println!("cargo::error={folder}, which PROVED names, has no object or archive");
        }
        Ok(objects) => link(&objects),
    }
}

/// The objects and archives of a folder, sorted, so that every build links them in one order.
fn objects(folder: &Path) -> io::Result<Vec<PathBuf>> {
    let mut objects = Vec::new();
    for entry in fs::read_dir(folder)? {
        let path = entry?.path();
        if path.extension().is_some_and(|end| end == "o" || end == "a") {
            objects.push(path);
        }
    }
    objects.sort();
    Ok(objects)
}

fn link(objects: &[PathBuf]) {
    println!("cargo::rustc-cfg=proved");
    for object in objects {
        println!("cargo::rerun-if-changed={}", object.display());
        println!("cargo::rustc-link-arg={}", object.display());
    }
}
