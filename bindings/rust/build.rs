//! Links the library's archive, or says why it can't.

use std::env;
use std::path::PathBuf;
use std::process;

/// The archive's file name.
const ARCHIVE: &str = "libkorehyumo.a";

fn main() {
    println!("cargo:rerun-if-changed=build.rs");
    println!("cargo:rerun-if-env-changed=KOREHYUMO_LIB_DIR");
    let processor = variable("CARGO_CFG_TARGET_ARCH");
    if processor != "x86_64" {
        stop(&format!(
            "the library's archive is for x86_64, and this build is for {processor}\n\
             korehyumo: build with `--target x86_64-unknown-linux-gnu`; scripts/x86-cargo does so on Arm"
        ));
    }
    let folder = folder();
    let archive = folder.join(ARCHIVE);
    println!("cargo:rerun-if-changed={}", archive.display());
    if !archive.is_file() {
        stop(&format!(
            "there is no archive {}\n\
             korehyumo: `scripts/built korehyumo` builds it; KOREHYUMO_LIB_DIR names another folder that has {ARCHIVE}",
            archive.display()
        ));
    }
    // The linker may run in another folder than this program.
    let whole = folder.canonicalize().unwrap_or(folder);
    println!("cargo:rustc-link-search=native={}", whole.display());
    println!("cargo:rustc-link-lib=static=korehyumo");
}

/// The folder of the archive.
fn folder() -> PathBuf {
    match env::var_os("KOREHYUMO_LIB_DIR") {
        Some(folder) => PathBuf::from(folder),
        None => PathBuf::from(variable("CARGO_MANIFEST_DIR")).join("../../target/staticlib"),
    }
}

/// An environment variable that cargo sets for every build script.
fn variable(name: &str) -> String {
    env::var(name).unwrap_or_else(|_| stop(&format!("cargo gave no {name}")))
}

/// Ends the build with a message.
fn stop(message: &str) -> ! {
    eprintln!("korehyumo: {message}");
    process::exit(1)
}
