//! Finds the static archive of the library for C, and links it.
//!
//! It is looked for in the folder that `VORGUSHAN_LIB_DIR` names, else in `lib` of the package that `./package` makes,
//! where this folder is `bindings/rust`. One archive has all (`libvorgushan.a`), or it comes in the two that a checkout
//! has: `libvorgushan_c.a` and `liblibc_c.a`, the calls for memory.

use std::env;
use std::path::{Path, PathBuf};
use std::process::exit;

/// The archives that make a library, by the names that the linker knows.
const ALTERNATIVES: [&[&str]; 2] = [&["vorgushan"], &["vorgushan_c", "libc_c"]];

const ADVICE: &str = concat!(
    "Either unpack vorgushan-",
    env!("CARGO_PKG_VERSION"),
    "-x86_64-linux.tar.gz, which ./package in a checkout of Vorgushan makes, and depend on its bindings/rust;\n",
    "or set VORGUSHAN_LIB_DIR to a folder with libvorgushan.a, as its lib is.\n",
    "In a checkout `rt lib` in crates/vorgushan_c makes libvorgushan_c.a: a folder with this and with liblibc_c.a,\n",
    "which lies in the folder c next to the page that `rt doc` names, will do too."
);

fn stop(why: &str) -> ! {
    eprintln!("vorgushan: {why}.\n{ADVICE}");
    exit(1)
}

/// The folder to look in.
fn folder() -> PathBuf {
    match env::var_os("VORGUSHAN_LIB_DIR") {
        Some(named) => PathBuf::from(named),
        None => Path::new(env!("CARGO_MANIFEST_DIR")).join("../../lib"),
    }
}

fn file(folder: &Path, name: &str) -> PathBuf {
    folder.join(format!("lib{name}.a"))
}

fn main() {
    println!("cargo:rerun-if-env-changed=VORGUSHAN_LIB_DIR");
    println!("cargo:rerun-if-changed=build.rs");
    let of_target = |part: &str| env::var(format!("CARGO_CFG_TARGET_{part}")).unwrap_or_default();
    if of_target("ARCH") != "x86_64" || of_target("OS") != "linux" {
        stop("the library is for Linux on x86-64 alone");
    }
    let folder = folder();
    if folder.is_relative() {
        stop("VORGUSHAN_LIB_DIR has to be an absolute path, since cargo builds each package in a folder of its own");
    }
    for names in ALTERNATIVES {
        for name in names {
            println!("cargo:rerun-if-changed={}", file(&folder, name).display());
        }
    }
    let Some(names) = ALTERNATIVES.iter().find(|names| names.iter().all(|name| file(&folder, name).is_file())) else {
        stop(&format!("the library for C isn't there: no libvorgushan.a in {}", folder.display()));
    };
    println!("cargo:rustc-link-search=native={}", folder.display());
    for name in *names {
        println!("cargo:rustc-link-lib=static={name}");
    }
}
