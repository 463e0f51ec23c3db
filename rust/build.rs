//! Finds libfolvkin.a, the proved library, and links it. It lies in
//! target/staticlib of the repository's root, or in the directory named by
//! FOLVKIN_LIB_DIR.
//!
//! The library is x86-64 code. For another processor it is not linked but
//! built into the bridge (bridge/bridge.c), an x86-64 program which makes the
//! calls and runs under the emulator of the Rattle kit; the tools for that are
//! found beside `rt`. An archive named by FOLVKIN_LIB_DIR is taken to be for
//! the processor that is built for, and linked.

use std::path::{Path, PathBuf};
use std::process::{Command, exit};
use std::{env, fs};

fn main() {
    println!("cargo::rustc-check-cfg=cfg(linked)");
    println!("cargo::rustc-check-cfg=cfg(bridged)");
    println!("cargo::rerun-if-env-changed=FOLVKIN_LIB_DIR");
    println!("cargo::rerun-if-changed=build.rs");
    if env::var_os("CARGO_FEATURE_LIBRARY").is_none() {
        return;
    }
    let package = PathBuf::from(variable("CARGO_MANIFEST_DIR"));
    let named = env::var_os("FOLVKIN_LIB_DIR").map(PathBuf::from);
    let is_named = named.is_some();
    let directory = named.unwrap_or_else(|| package.join("../target/staticlib"));
    let library = directory.join("libfolvkin.a");
    println!("cargo::rerun-if-changed={}", library.display());
    if !library.is_file() {
        fail(&format!(
            "{} is not there: run `tools/staticlib.sh` at the repository's root first, \
             or build without the library by `--no-default-features`.",
            library.display()
        ));
    }
    if variable("CARGO_CFG_TARGET_ARCH") == "x86_64" || is_named {
        println!("cargo::rustc-cfg=linked");
        println!("cargo::rustc-link-search=native={}", directory.display());
        println!("cargo::rustc-link-lib=static:-bundle=folvkin");
    } else {
        println!("cargo::rustc-cfg=bridged");
        build_bridge(&package, &library);
    }
}

/// Compiles bridge/bridge.c for x86-64 and links it with the library.
fn build_bridge(package: &Path, library: &Path) {
    let sources = package.join("bridge");
    let header = package.join("../include");
    println!("cargo::rerun-if-changed={}", sources.display());
    println!("cargo::rerun-if-changed={}", header.display());
    let Some(rt) = find_program("rt").and_then(|rt| fs::canonicalize(rt).ok()) else {
        fail(
            "`rt` is not on the PATH: the library is x86-64 code, and the tools to run it here are found beside `rt`.",
        );
    };
    let kit = rt.ancestors().nth(2).expect("rt lies in a folder bin").join("on").join(env::consts::ARCH);
    let toolchain = kit.join("toolchain");
    let out = PathBuf::from(variable("OUT_DIR"));
    let object = out.join("bridge.o");
    let program = out.join("bridge");
    run(Command::new(toolchain.join("bin/clang"))
        .args(["--target=x86_64-unknown-linux-gnu", "-O2", "-ffreestanding", "-fPIC", "-Wall", "-nostdinc"])
        .arg("-I")
        .arg(&sources)
        .arg("-I")
        .arg(&header)
        .arg("-c")
        .arg(sources.join("bridge.c"))
        .arg("-o")
        .arg(&object));
    run(Command::new(kit.join("bin/rattle-link"))
        .args(["--target", "x86_64-unknown-linux-gnu", "--toolchain"])
        .arg(&toolchain)
        .arg("-o")
        .args([&program, &object])
        .arg(library));
    println!("cargo::rustc-env=FOLVKIN_BRIDGE={}", program.display());
    println!("cargo::rustc-env=FOLVKIN_EMULATOR={}", toolchain.join("bin/qemu-x86_64").display());
    println!("cargo::rustc-env=FOLVKIN_LOADER={}", toolchain.join("lib/ld-linux-x86-64.so.2").display());
    println!("cargo::rustc-env=FOLVKIN_LOADED={}", toolchain.join("lib").display());
}

fn run(command: &mut Command) {
    match command.status() {
        Ok(status) if status.success() => {}
        Ok(status) => fail(&format!("{command:?} ended with {status}")),
        Err(error) => fail(&format!("{command:?}: {error}")),
    }
}

fn find_program(name: &str) -> Option<PathBuf> {
    env::split_paths(&env::var_os("PATH")?).map(|folder| folder.join(name)).find(|path| path.is_file())
}

fn variable(name: &str) -> String {
    env::var(name).unwrap_or_else(|_| panic!("cargo sets {name}"))
}

fn fail(sentence: &str) -> ! {
    eprintln!("{sentence}");
    exit(1)
}
