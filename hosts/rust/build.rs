//! Links the monitor's archive, `libmonitor.a`, which `bash hosts/build.sh` writes.

use std::env;
use std::fs;
use std::path::PathBuf;

fn main() {
    println!("cargo:rerun-if-env-changed=MONITOR_ARCHIVES");
    // A relative folder starts at this crate's, where this program is run; the linker wants it whole.
    let named = env::var_os("MONITOR_ARCHIVES").unwrap_or_else(|| "../../target".into());
    let folder = fs::canonicalize(&named).unwrap_or_else(|_| PathBuf::from(named));
    let archive = folder.join("libmonitor.a");
    println!("cargo:rerun-if-changed={}", archive.display());
    assert!(
        archive.exists(),
        "{} is missing: write it with `bash hosts/build.sh`, or name its folder in \
         MONITOR_ARCHIVES",
        archive.display()
    );
    println!("cargo:rustc-link-lib=static=monitor");
    println!("cargo:rustc-link-search=native={}", folder.display());
}
