//! Finds libtiming_060.a: in the folder that TIMING_060_LIB names, else where `tools/install` puts it, for the crate
//! that it installs and for the one in the repository. Where there is none, a warning says what is missing: checks and
//! documentation need no library, and the compiler refuses to link what has none.
use std::env::var;
use std::path::PathBuf;

/// The folder of the library, or what is missing.
fn folder() -> Result<PathBuf, String> {
    let is = |name: &str, value: &str| var(name).as_deref() == Ok(value);
    let linux = is("CARGO_CFG_TARGET_ARCH", "x86_64") && is("CARGO_CFG_TARGET_OS", "linux");
    if !(linux && is("CARGO_CFG_TARGET_POINTER_WIDTH", "64")) {
        let target = var("TARGET").unwrap_or_default();
        return Err(format!("libtiming_060.a is for x86-64 Linux, and this build is for {target}"));
    }
    let here = PathBuf::from(var("CARGO_MANIFEST_DIR").unwrap_or_default());
    let usual = if here.ends_with("share/timing_060/rust") { "../../../lib" } else { "../../target/staticlib" };
    let folder = here.join(var("TIMING_060_LIB").unwrap_or_else(|_| usual.into()));
    let archive = folder.join("libtiming_060.a");
    println!("cargo:rerun-if-changed={}", archive.display());
    if archive.is_file() {
        return Ok(folder);
    }
    let help = "`tools/install PREFIX` makes it, or TIMING_060_LIB names the folder that has it";
    Err(format!("there is no {}: {help}", archive.display()))
}

fn main() {
    println!("cargo:rerun-if-changed=build.rs");
    println!("cargo:rerun-if-env-changed=TIMING_060_LIB");
    match folder() {
        Ok(folder) => println!("cargo:rustc-link-search=native={}", folder.display()),
        Err(missing) => println!("cargo:warning={missing}; without it nothing can be linked"),
    }
    println!("cargo:rustc-link-lib=static=timing_060");
}
