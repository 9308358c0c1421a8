//! Links the proved library.

use std::env;
use std::path::PathBuf;

const ARCHIVE: &str = "libbrassdozen.a";

fn main() {
    match folder() {
        Ok(folder) => {
            println!("cargo::rerun-if-changed={}", folder.join(ARCHIVE).display());
            println!("cargo::rustc-link-search=native={}", folder.display());
            println!("cargo::rustc-link-lib=static=brassdozen");
        }
        Err(why) => println!("cargo::error={why}"),
    }
}

/// The folder that has the archive. A relative one is taken from the folder that cargo was called
/// in. This program runs in another, so PWD has to name it.
fn folder() -> Result<PathBuf, String> {
    println!("cargo::rerun-if-env-changed=BRASSDOZEN");
    let named = env::var("BRASSDOZEN").map_err(|_| {
        format!("the environment variable BRASSDOZEN is to name the folder that has {ARCHIVE}")
    })?;
    let mut folder = PathBuf::from(&named);
    if folder.is_relative() {
        println!("cargo::rerun-if-env-changed=PWD");
        let called_in = env::var("PWD").map_err(|_| {
            format!("BRASSDOZEN is {named}, and no PWD says in which folder cargo was called: give it from the root on")
        })?;
        folder = PathBuf::from(called_in).join(folder);
    }
    let archive = folder.join(ARCHIVE);
    if archive.is_file() {
        Ok(folder)
    } else {
        Err(format!(
            "BRASSDOZEN is {named}, and there is no file {}",
            archive.display()
        ))
    }
}
