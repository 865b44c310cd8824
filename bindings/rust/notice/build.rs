//! Says that the archive has to be proved, and roughly how long that takes. Cargo shows the warnings of a build script when it has ended, so
//! the one that proves cannot say it in time; this one runs before it.
use std::path::Path;
use std::process::Command;

fn main() {
    println!("cargo::rerun-if-env-changed=BRACETWILL_LIB_DIR");
    let Some(here) = std::env::var_os("CARGO_MANIFEST_DIR") else { return };
    if std::env::var_os("BRACETWILL_LIB_DIR").is_some() {
        return;
    }
    let root = Path::new(&here).join("../../..");
    for path in ["crates", "crates.txt", "bindings/archive", "tools/slices.ll"] {
        println!("cargo::rerun-if-changed={}", root.join(path).display());
    }
    if let Ok(said) = Command::new("sh").arg(root.join("bindings/archive")).arg("--stale").output() {
        for line in String::from_utf8_lossy(&said.stdout).lines() {
            println!("cargo::warning={line}");
        }
    }
}
