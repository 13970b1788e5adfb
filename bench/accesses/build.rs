// Keeps which compiler built the benchmark: it says so beside its times. bench/logs has it too.
use std::{env, process::Command};

fn main() {
    println!("cargo:rerun-if-changed={}/../accesses/build.rs", env!("CARGO_MANIFEST_DIR"));
    let said = Command::new(env::var_os("RUSTC").expect("cargo names the compiler")).arg("--version").output();
    let version = said.ok().and_then(|said| String::from_utf8(said.stdout).ok()).unwrap_or_default();
    println!("cargo:rustc-env=BENCH_RUSTC={}", version.trim());
}
