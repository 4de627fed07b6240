//! Writes the queue's file with one line added: each `pop_head` counts one take.
use std::{env, fs, path::Path};

const QUEUE: &str = "../../docs/src/crates/geo/src/raster/algo/clusterutils.rs";
const TAKE: &str = "    pub fn pop_head(&mut self) -> T {\n";
const COUNT: &str = "        crate::takes::count();\n";

fn main() {
    println!("cargo::rerun-if-changed={QUEUE}");
    println!("cargo::rustc-cfg=counted");
    let text = fs::read_to_string(QUEUE).expect("the queue's file is in docs/src");
    let parts: Vec<&str> = text.split(TAKE).collect();
    assert_eq!(parts.len(), 2, "the queue's file has one pop_head");
    let counted = format!("{}{TAKE}{COUNT}{}", parts[0], parts[1]);
    let out = env::var("OUT_DIR").expect("cargo sets OUT_DIR");
    fs::write(Path::new(&out).join("clusterutils.rs"), counted).expect("OUT_DIR can be written");
}
