//! Links libhaul_c.a: from the folder that HAUL_LIB_DIR names, or from where `.ci/archive` puts it.
use std::env;
use std::path::PathBuf;

const ARCHIVE: &str = "libhaul_c.a";
const IN_THE_REPOSITORY: &str = "../../target/staticlib";

fn main() {
    println!("cargo::rerun-if-env-changed=HAUL_LIB_DIR");
    let folder = env::var_os("HAUL_LIB_DIR").map_or_else(|| PathBuf::from(IN_THE_REPOSITORY), PathBuf::from);
    let archive = folder.join(ARCHIVE);
    println!("cargo::rerun-if-changed={}", archive.display());
    match archive.canonicalize() {
        Ok(found) => {
            println!("cargo::rustc-link-search=native={}", found.parent().expect("a file has a folder").display());
            println!("cargo::rustc-link-lib=static=haul_c");
        }
        Err(_) => println!(
            "cargo::error={} is not there: run `.ci/archive` at the root of the repository, or set HAUL_LIB_DIR \
             to the folder that has {ARCHIVE}",
            archive.display()
        ),
    }
}
