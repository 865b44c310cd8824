//! Finds the archive of proved calls, libbracetwill.a, and has the crate linked with it.
//! BRACETWILL_LIB_DIR names a folder that has it already; else bindings/archive looks whether the repository's is there and no older than
//! the sources, and else proves and writes it, which needs the Rattle kit and minutes. The crate in notice/ says so before this starts.
use std::path::{Path, PathBuf};
use std::process::Command;

fn main() {
    println!("cargo::rerun-if-env-changed=BRACETWILL_LIB_DIR");
    if let Err(why) = link() {
        println!("cargo::error={why}");
    }
}

fn link() -> Result<(), String> {
    let of = |name: &str| std::env::var(name).map_err(|_| format!("cargo did not set {name}"));
    let (arch, os) = (of("CARGO_CFG_TARGET_ARCH")?, of("CARGO_CFG_TARGET_OS")?);
    let dir = match std::env::var_os("BRACETWILL_LIB_DIR") {
        Some(dir) => PathBuf::from(dir),
        None => written(&Path::new(&of("CARGO_MANIFEST_DIR")?).join("../.."), processor(&arch, &os)?)?,
    };
    let archive = dir.join("libbracetwill.a");
    if !archive.is_file() {
        return Err(format!("there is no {}", archive.display()));
    }
    println!("cargo::rerun-if-changed={}", archive.display());
    println!("cargo::rustc-link-search=native={}", dir.display());
    println!("cargo::rustc-link-lib=static=bracetwill");
    Ok(())
}

/// Cargo's name of a processor as bindings/archive has it.
fn processor<'a>(arch: &'a str, os: &str) -> Result<&'a str, String> {
    match (arch, os) {
        ("x86_64" | "aarch64" | "riscv64" | "s390x", "linux") => Ok(arch),
        ("arm", "linux") => Ok("armv7"),
        ("x86", "linux") => Ok("i686"),
        _ => Err(format!("bindings/archive makes no library for {arch} {os}. Set BRACETWILL_LIB_DIR to a folder that has libbracetwill.a")),
    }
}

/// The folder of the archive in the repository, written anew where it has to be.
fn written(root: &Path, processor: &str) -> Result<PathBuf, String> {
    for sources in ["crates", "crates.txt", "bindings/archive", "tools/slices.ll"] {
        println!("cargo::rerun-if-changed={}", root.join(sources).display());
    }
    let made = Command::new("sh").arg(root.join("bindings/archive")).args(["--for", processor]).output();
    let made = made.map_err(|e| format!("bindings/archive could not be run: {e}"))?;
    if !made.status.success() {
        let said = String::from_utf8_lossy(&made.stderr).into_owned();
        let last = said.lines().last().unwrap_or("nothing was said");
        return Err(format!("the archive could not be written: {last}. Set BRACETWILL_LIB_DIR to a folder that has libbracetwill.a"));
    }
    Ok(root.join("target/lib").join(processor))
}
