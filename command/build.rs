//! Links the number of a word's row in the manual, which is a library of its own (the crate brassdozen links the other), and takes the
//! rows' titles from their definition.

use std::path::Path;
use std::{env, fs};

const TITLES: &str = "../crates/manual_tables/specs/Titles.antt";

fn main() {
    for named in ["BRASSDOZEN", "BRASSDOZEN_LOGIC"] {
        println!("cargo::rerun-if-env-changed={named}");
    }
    println!("cargo::rerun-if-changed={TITLES}");
    if let Err(why) = link().and_then(|()| titles()) {
        println!("cargo::error={why}");
    }
    // What the library was proved by, for --version.
    let logic = env::var("BRASSDOZEN_LOGIC").unwrap_or_else(|_| "not known".into());
    println!("cargo::rustc-env=BRASSDOZEN_LOGIC={logic}");
}

fn link() -> Result<(), String> {
    let folder = env::var("BRASSDOZEN").map_err(
        |_| "the environment variable BRASSDOZEN is to name the folder that has libmanual_rows.a",
    )?;
    println!(
        "cargo::rerun-if-changed={}",
        Path::new(&folder).join("libmanual_rows.a").display()
    );
    println!("cargo::rustc-link-search=native={folder}");
    println!("cargo::rustc-link-lib=static=manual_rows");
    Ok(())
}

/// The texts in quotes between `titles =` and the end of the list, each with the table that the comment before it names.
fn titles() -> Result<(), String> {
    let definition = fs::read_to_string(TITLES).map_err(|error| format!("{TITLES}: {error}"))?;
    let list = definition
        .split_once("\ntitles =\n")
        .and_then(|(_, rest)| rest.split_once("[]"));
    let (list, _) = list.ok_or_else(|| format!("{TITLES} has no list of titles"))?;
    let mut table = "";
    let mut rows = Vec::new();
    for line in list.lines().map(str::trim) {
        match line.strip_prefix("-- ") {
            Some(said) => table = said,
            None => rows.extend(
                line.split('"')
                    .skip(1)
                    .step_by(2)
                    .map(|title| format!("    ({title:?}, {table:?}),\n")),
            ),
        }
    }
    let source = format!(
        "static ROWS: [(&str, &str); {}] = [\n{}];\n",
        rows.len(),
        rows.concat()
    );
    let out = Path::new(&env::var("OUT_DIR").unwrap_or_default()).join("rows.rs");
    fs::write(&out, source).map_err(|error| format!("{}: {error}", out.display()))
}
