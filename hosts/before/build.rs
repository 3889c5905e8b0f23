//! Where `MONITOR_BEFORE` names a folder with an earlier archive, links copies of it and of today's,
//! in which the calls have other names and nothing else has a name that the linker sees. There are
//! four copies of each, since a loop's place in memory changes its time: the code of each lies
//! 16 bytes further on in a line of 64 bytes.

#[path = "src/archives.rs"]
mod archives;

use archives::archives_in;
use std::env;
use std::ffi::OsString;
use std::fs;
use std::path::{Path, PathBuf};
use std::process::Command;

const CALLS: [&str; 6] = ["compile", "begin", "step", "run", "decide", "join"];
/// Those that an earlier archive may lack.
const LATER_CALLS: [&str; 2] = ["decide", "join"];
const PLACES: usize = 4;

/// The earlier archive, or today's.
struct Side {
    name: &'static str,
    archives: Vec<PathBuf>,
    /// The calls that it has: an earlier one may lack some.
    calls: Vec<&'static str>,
}

fn main() {
    println!("cargo:rustc-check-cfg=cfg(earlier)");
    for call in LATER_CALLS {
        println!("cargo:rustc-check-cfg=cfg(earlier_{call})");
    }
    println!("cargo:rerun-if-env-changed=MONITOR_BEFORE");
    println!("cargo:rerun-if-env-changed=MONITOR_ARCHIVES");
    let Some(folder) = variable("MONITOR_BEFORE") else {
        return;
    };
    let before = side("before", "MONITOR_BEFORE", folder);
    // Where the crate `monitor` looks too.
    let folder = variable("MONITOR_ARCHIVES").unwrap_or_else(|| "../../target".into());
    let now = side("now", "MONITOR_ARCHIVES", folder);
    println!("cargo:rustc-cfg=earlier");
    for call in LATER_CALLS {
        if before.calls.contains(&call) {
            println!("cargo:rustc-cfg=earlier_{call}");
        }
    }
    println!("cargo:rustc-env=ARCHIVES_BEFORE={}", list(&before.archives));
    println!("cargo:rustc-env=ARCHIVES_NOW={}", list(&now.archives));
    link(&before, &now);
}

fn variable(name: &str) -> Option<OsString> {
    env::var_os(name).filter(|value| !value.is_empty())
}

fn side(name: &'static str, variable: &str, folder: OsString) -> Side {
    let archives = found(variable, folder);
    let calls = calls_of(&archives);
    Side {
        name,
        archives,
        calls,
    }
}

/// The archives in a folder. A relative one starts at this crate's, where this program is run.
fn found(variable: &str, folder: OsString) -> Vec<PathBuf> {
    let folder = fs::canonicalize(&folder).unwrap_or_else(|_| PathBuf::from(folder));
    let archives = archives_in(&folder).unwrap_or_else(|| {
        panic!(
            "{} has neither libmonitor.a nor libcompiler.a and librunner.a: name their folder in \
             {variable}",
            folder.display()
        )
    });
    for archive in &archives {
        println!("cargo:rerun-if-changed={}", archive.display());
    }
    archives
}

fn list(archives: &[PathBuf]) -> String {
    let names: Vec<String> = archives.iter().map(|a| a.display().to_string()).collect();
    names.join(", ")
}

/// The calls that the archives define.
fn calls_of(archives: &[PathBuf]) -> Vec<&'static str> {
    let mut nm = Command::new("nm");
    nm.args(["--defined-only", "--extern-only", "--format=posix"]);
    let symbols = match nm.args(archives).output() {
        Ok(output) if output.status.success() => output.stdout,
        came => panic!("{nm:?}: {came:?}"),
    };
    let symbols = String::from_utf8_lossy(&symbols);
    let names: Vec<&str> = symbols
        .lines()
        .filter_map(|line| line.split(' ').next()?.strip_prefix("monitor_"))
        .collect();
    let is_defined = |call: &&str| names.contains(call);
    CALLS.into_iter().filter(is_defined).collect()
}

/// Writes the copies into one archive and has it linked.
fn link(before: &Side, now: &Side) {
    let out = PathBuf::from(env::var_os("OUT_DIR").expect("cargo names a folder"));
    let copies = out.join("libmonitor_copies.a");
    if copies.exists() {
        fs::remove_file(&copies).expect("the older copies are removed");
    }
    let mut objects = Vec::new();
    for place in 0..PLACES {
        for side in [before, now] {
            objects.push(copy(&out, side, place));
        }
    }
    run(Command::new("ar").arg("crs").arg(copies).args(objects));
    println!("cargo:rustc-link-search=native={}", out.display());
    println!("cargo:rustc-link-lib=static=monitor_copies");
    let [before, now] = [before, now].map(|side| joined(&out, side, 0));
    let bytes = |object| fs::read(object).expect("an object is read");
    println!(
        "cargo:rustc-env=ARCHIVES_ALIKE={}",
        bytes(before) == bytes(now)
    );
}

/// Where the object of a copy is, before the calls are renamed.
fn joined(out: &Path, side: &Side, place: usize) -> PathBuf {
    out.join(format!("{}_{place}_joined.o", side.name))
}

/// One object of all that the calls need, in which they are named `before_0_run` and so on.
fn copy(out: &Path, side: &Side, place: usize) -> PathBuf {
    let name = format!("{}_{place}", side.name);
    let calls = || side.calls.iter();
    let joined = joined(out, side, place);
    let [script, renamed] = ["ld", "o"].map(|end| out.join(format!("{name}.{end}")));
    let moved = 16 * place;
    let text =
        format!("SECTIONS {{ .text : ALIGN(64) {{ . = . + {moved}; *(.text .text.*) }} }}\n");
    fs::write(&script, text).expect("the linker script is written");
    run(Command::new("ld")
        .args(["-r", "-T"])
        .arg(&script)
        .args(calls().map(|call| format!("--undefined=monitor_{call}")))
        .arg("--start-group")
        .args(&side.archives)
        .args(["--end-group", "-o"])
        .arg(&joined));
    run(Command::new("objcopy")
        .args(calls().map(|call| format!("--redefine-sym=monitor_{call}={name}_{call}")))
        .args(calls().map(|call| format!("--keep-global-symbol={name}_{call}")))
        .args([&joined, &renamed]));
    renamed
}

fn run(command: &mut Command) {
    match command.status() {
        Ok(status) => assert!(status.success(), "{command:?}: {status}"),
        Err(error) => panic!("{command:?}: {error}"),
    }
}
