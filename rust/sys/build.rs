//! Finds the proved library, or has it proved, and tells cargo where it is.

use std::env;
use std::fs;
use std::io;
use std::path::{Path, PathBuf};
use std::process::{Command, Output};

fn main() {
    println!("cargo::rerun-if-env-changed=TAILBOARDY_LIB");
    println!("cargo::rerun-if-changed=build.rs");
    if env::var_os("CARGO_FEATURE_LINKED").is_none() {
        return;
    }
    match processor()
        .and_then(|()| archive())
        .and_then(|it| take(&it))
    {
        Ok(folder) => {
            println!("cargo::rustc-link-search=native={}", folder.display());
            println!("cargo::rustc-link-lib=static=exports");
        }
        Err(why) => println!("cargo::error={why}"),
    }
}

/// Checks the target: the library is machine code for one processor and one calling convention.
fn processor() -> Result<(), String> {
    let is = |name: &str, wanted: &str| env::var(name).is_ok_and(|value| value == wanted);
    let fits = is("CARGO_CFG_TARGET_ARCH", "x86_64")
        && is("CARGO_CFG_TARGET_POINTER_WIDTH", "64")
        && is("CARGO_CFG_TARGET_OS", "linux");
    let target = env::var("TARGET").unwrap_or_default();
    fits.then_some(()).ok_or(format!(
        "the proved library is x86-64 Linux code and cannot be linked for {target}: build with --target x86_64-unknown-linux-gnu, as rust/setup does"
    ))
}

/// The archive that TAILBOARDY_LIB names, or else the one that rust/library leaves once the calls are proved.
fn archive() -> Result<PathBuf, String> {
    if let Some(named) = env::var_os("TAILBOARDY_LIB") {
        println!("cargo::rerun-if-changed={}", Path::new(&named).display());
        return Ok(named.into());
    }
    let root = Path::new(env!("CARGO_MANIFEST_DIR")).join("../..");
    for part in proved_from(&root) {
        println!("cargo::rerun-if-changed={}", part.display());
    }
    let proved = Command::new(root.join("rust/library")).output();
    answered(proved).map(|()| root.join("target/staticlib/libexports.a"))
}

/// The list of crates, and the folders that each is proved from. What the kit itself makes is beside these, in `out`.
fn proved_from(root: &Path) -> Vec<PathBuf> {
    let crates = fs::read_dir(root.join("crates")).into_iter().flatten();
    let parts = crates
        .flatten()
        .flat_map(|it| ["src", "specs", "proofs"].map(|part| it.path().join(part)));
    let list = [root.join("crates.txt"), root.join("rust/library")];
    parts.filter(|it| it.is_dir()).chain(list).collect()
}

fn answered(proved: io::Result<Output>) -> Result<(), String> {
    match proved {
        Ok(output) if output.status.success() => Ok(()),
        Ok(output) => {
            let told = [output.stdout, output.stderr].concat();
            let told = String::from_utf8_lossy(&told);
            let last = told.lines().last().unwrap_or("there was no output");
            Err(format!(
                "rust/library, which proves the library, failed: {last}. Or set TAILBOARDY_LIB to the path of a libexports.a"
            ))
        }
        Err(error) => Err(format!(
            "rust/library, which proves the library, does not start ({error}): set TAILBOARDY_LIB to the path of a libexports.a"
        )),
    }
}

/// Copies the archive into the build folder, so that what was linked remains when the library is proved anew.
fn take(archive: &Path) -> Result<PathBuf, String> {
    let folder = PathBuf::from(env::var_os("OUT_DIR").unwrap_or_default());
    match fs::copy(archive, folder.join("libexports.a")) {
        Ok(_) => Ok(folder),
        Err(error) => Err(format!(
            "cannot copy the library {}: {error}",
            archive.display()
        )),
    }
}
