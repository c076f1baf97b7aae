// Links libembed.a: from TRUSSHEMP_LIB where that is set, else from the repository's crates/embed/out, where
// `rt lib` makes it if it is missing. The archive is for x86-64; for another processor nothing is linked,
// and the crate has records and replies only.
use std::io::Write;
use std::path::{Path, PathBuf};
use std::process::{exit, Command};
use std::{env, fs};

fn main() {
    println!("cargo:rerun-if-env-changed=TRUSSHEMP_LIB");
    let processor = env::var("CARGO_CFG_TARGET_ARCH").expect("cargo sets it");
    if processor != "x86_64" {
        println!("cargo:warning=the archive is for x86-64: on {processor} there is no Session and no Pool");
        return;
    }
    let here = PathBuf::from(env::var_os("CARGO_MANIFEST_DIR").expect("cargo sets it"));
    let given = env::var_os("TRUSSHEMP_LIB").map(PathBuf::from);
    let root = here.ancestors().nth(2).unwrap_or(&here);
    let folder = given.clone().unwrap_or_else(|| root.join("crates/embed/out"));
    let archive = folder.join("libembed.a");
    println!("cargo:rerun-if-changed={}", archive.display());
    if !archive.exists() {
        match given {
            Some(_) => fail(&archive, "TRUSSHEMP_LIB names that folder"),
            None => make(&archive, root),
        }
    }
    println!("cargo:rustc-link-search=native={}", folder.display());
    println!("cargo:rustc-link-lib=static=embed");
}

/// Ends the build: cargo shows what is said here.
fn fail(archive: &Path, reason: &str) {
    eprintln!("There is no {}: {reason}.", archive.display());
    eprintln!("Make it by `rt lib` in crates/embed of the repository of trusshemp (the kit: README.md, \"Run it\"),");
    eprintln!("or set TRUSSHEMP_LIB to the folder in which libembed.a stands.");
    exit(1);
}

/// Makes the archive. Where the crates are not yet proved that takes minutes, during which cargo shows nothing of a
/// build script: the terminal is told.
fn make(archive: &Path, root: &Path) {
    let command = "rt lib";
    if !root.join("crates/embed").is_dir() {
        return fail(archive, "this crate does not stand in its repository");
    }
    if let Ok(mut terminal) = fs::OpenOptions::new().write(true).open("/dev/tty") {
        let _ = writeln!(terminal, "trusshemp: `{command}` makes the archive, and proves it first: some minutes, once");
    }
    match Command::new("rt").arg("lib").current_dir(root.join("crates/embed")).output() {
        Err(error) => fail(archive, &format!("`{command}` does not start ({error})")),
        Ok(run) if !run.status.success() || !archive.exists() => {
            eprintln!("{}{}", String::from_utf8_lossy(&run.stdout), String::from_utf8_lossy(&run.stderr));
            fail(archive, &format!("`{command}` failed ({})", run.status));
        }
        Ok(_) => println!("cargo:warning=there was no libembed.a: `{command}` made {}", archive.display()),
    }
}
