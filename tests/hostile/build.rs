// Compiles through.c, the calls by way of the C header, with the C compiler named by CC.
use std::{env, path::Path, process::Command};

fn main() {
    let out = env::var("OUT_DIR").unwrap();
    let compiler = env::var("CC").unwrap_or_else(|_| "cc".into());
    let (object, archive) = (Path::new(&out).join("through.o"), Path::new(&out).join("libthrough.a"));
    run(Command::new(&compiler)
        .args([
            "-std=c99",
            // Not optimised, so that an argument is cut to the width that the header gives it.
            "-O0",
            "-Wall",
            "-Wextra",
            "-Wpedantic",
            "-Werror",
            "-I../../include",
            "-c",
            "through.c",
            "-o",
        ])
        .arg(&object));
    run(Command::new(env::var("AR").unwrap_or_else(|_| "ar".into())).arg("rcs").arg(&archive).arg(&object));
    println!("cargo:rerun-if-changed=through.c");
    println!("cargo:rerun-if-changed=../../include/oaledva.h");
    println!("cargo:rerun-if-env-changed=CC");
    println!("cargo:rustc-link-search=native={out}");
}

fn run(command: &mut Command) {
    let status = command.status().unwrap_or_else(|e| panic!("{command:?}: {e}"));
    assert!(status.success(), "{command:?} failed");
}
