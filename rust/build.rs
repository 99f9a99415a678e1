//! Finds the archive libdual_ledger.a, or has it made: in the folder that DUAL_LEDGER_LIB names, from where cargo was called, from the crate or from the repository; else in the repository's target/staticlib, if it is no
//! older than the sources it was proved from; else by rust/archive, which needs the Rattle toolchain.
use std::path::{Path, PathBuf};
use std::process::Command;
use std::time::SystemTime;
use std::{env, fs};

const ARCHIVE: &str = "libdual_ledger.a";

fn fail(why: String) -> ! {
    eprintln!("dual_ledger: {why}");
    std::process::exit(1)
}

/// The latest change below a folder, what the toolchain writes (folders out) left aside.
fn latest(folder: &Path) -> Option<SystemTime> {
    let entries = fs::read_dir(folder).ok()?.flatten().filter(|entry| entry.file_name() != "out");
    let changed = |path: PathBuf| if path.is_dir() { latest(&path) } else { path.metadata().ok()?.modified().ok() };
    entries.filter_map(|entry| changed(entry.path())).max()
}

/// Has cargo look at a crate's own folders, and not at what the toolchain writes beside them.
fn watch(sources: &Path) {
    println!("cargo:rerun-if-changed={}", sources.with_extension("txt").display());
    for entry in fs::read_dir(sources).into_iter().flatten().flatten() {
        for part in ["src", "specs", "proofs"].map(|name| entry.path().join(name)).iter().filter(|part| part.exists()) {
            println!("cargo:rerun-if-changed={}", part.display());
        }
    }
}

/// Whether an archive is there and no source of it was changed since.
fn is_current(archive: &Path, sources: &Path) -> bool {
    let made = archive.metadata().and_then(|found| found.modified()).ok();
    made.is_some_and(|made| latest(sources).map_or(true, |changed| changed <= made))
}

/// Has the archive made, and names its folder.
fn make(script: &Path) -> PathBuf {
    let ran = Command::new(script).output().unwrap_or_else(|why| {
        fail(format!("no {ARCHIVE}: set DUAL_LEDGER_LIB to the folder that holds it, or let {} make it ({why})", script.display()))
    });
    if !ran.status.success() {
        let said = String::from_utf8_lossy(&ran.stderr);
        fail(format!("no {ARCHIVE}, and it could not be made. {}", said.trim()))
    }
    let archive = PathBuf::from(String::from_utf8_lossy(&ran.stdout).trim());
    archive.parent().map(Path::to_path_buf).unwrap_or_else(|| fail(format!("{} named no archive", script.display())))
}

fn folder(root: &Path) -> PathBuf {
    println!("cargo:rerun-if-env-changed=DUAL_LEDGER_LIB");
    if let Some(named) = env::var_os("DUAL_LEDGER_LIB").map(PathBuf::from) {
        let called = env::var_os("PWD").map(PathBuf::from);
        let from = [called, Some(root.join("rust")), Some(root.to_path_buf())];
        let found = from.into_iter().flatten().map(|place| place.join(&named)).find(|folder| folder.join(ARCHIVE).exists());
        let folder = found.unwrap_or_else(|| fail(format!("DUAL_LEDGER_LIB is {}, and there is no {ARCHIVE} in it", named.display())));
        println!("cargo:rerun-if-changed={}", folder.join(ARCHIVE).display());
        return folder.canonicalize().unwrap_or(folder);
    }
    let (sources, built) = (root.join("crates"), root.join("target/staticlib"));
    watch(&sources);
    println!("cargo:rerun-if-changed={}", root.join("rust/archive").display());
    if is_current(&built.join(ARCHIVE), &sources) {
        return built;
    }
    make(&root.join("rust/archive"))
}

fn main() {
    println!("cargo:rerun-if-changed=build.rs");
    let here = PathBuf::from(env::var_os("CARGO_MANIFEST_DIR").expect("cargo says where the crate is"));
    let root = here.parent().unwrap_or_else(|| fail("the crate is to stand in the repository's folder rust".to_string()));
    println!("cargo:rustc-link-search=native={}", folder(root).display());
    println!("cargo:rustc-link-lib=static=dual_ledger");
}
