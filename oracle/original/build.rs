//! Names the four source files where they lie, so that no line of them is copied: the folder is DUAL_SOURCES, by default that of the
//! documents beside the repository.
use std::path::{Path, PathBuf};
use std::{env, fs};

const MODULES: [(&str, &str); 4] = [("#[macro_use] ", "pointers"), ("", "util"), ("", "visualize"), ("", "dual_module")];

fn sources() -> PathBuf {
    let here = PathBuf::from(env::var("CARGO_MANIFEST_DIR").unwrap());
    let beside = here.join("../../../shared/docs/src/src");
    env::var("DUAL_SOURCES").map(PathBuf::from).unwrap_or(beside)
}

fn line(folder: &Path, (before, name): (&str, &str)) -> String {
    let file = folder.join(format!("{name}.rs"));
    println!("cargo:rerun-if-changed={}", file.display());
    let file = file.canonicalize().unwrap_or_else(|_| panic!("no source {}: set DUAL_SOURCES to the folder of dual_module.rs", file.display()));
    format!("{before}#[path = {file:?}] pub mod {name};\n")
}

fn main() {
    println!("cargo:rerun-if-env-changed=DUAL_SOURCES");
    let folder = sources();
    let text: String = MODULES.into_iter().map(|module| line(&folder, module)).collect();
    fs::write(Path::new(&env::var("OUT_DIR").unwrap()).join("modules.rs"), text).unwrap();
}
