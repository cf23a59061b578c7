//! Compiles the C of this crate, which calls what include/yurodekapi.h declares, and links it with the archive `libcabi.a`
//! from the directory in YD_ARCHIVE_DIR, or from the place where it is built by default. A relative directory is taken from
//! this crate's own. The crate is told the archive's path, as the bench measures its size.

use std::env;
use std::path::{Path, PathBuf};
use std::process::Command;

const FLAGS: [&str; 8] = ["-std=c99", "-Wall", "-Wextra", "-Wconversion", "-Wpedantic", "-Werror", "-O2", "-c"];
const SOURCES: [&str; 2] = ["calls", "names"];

fn main() {
    let own = directory("CARGO_MANIFEST_DIR");
    compile(&own, &directory("OUT_DIR"));
    link_archive(&own);
}

fn directory(variable: &str) -> PathBuf {
    env::var_os(variable).unwrap_or_default().into()
}

/// Compiles each source against the header and has them linked, before the archive that they call.
fn compile(own: &Path, made: &Path) {
    let include = own.join("../../include");
    println!("cargo:rerun-if-changed={}", include.join("yurodekapi.h").display());
    let mut archiver = Command::new("ar");
    archiver.arg("crs").arg(made.join("libcalls.a"));
    for name in SOURCES {
        let source = own.join("src").join(name).with_extension("c");
        let object = made.join(name).with_extension("o");
        println!("cargo:rerun-if-changed={}", source.display());
        run(Command::new("gcc").args(FLAGS).arg("-I").arg(&include).arg(source).arg("-o").arg(&object));
        archiver.arg(object);
    }
    run(&mut archiver);
    println!("cargo:rustc-link-search=native={}", made.display());
    println!("cargo:rustc-link-lib=static=calls");
}

fn run(command: &mut Command) {
    let status = command.status();
    assert!(status.is_ok_and(|status| status.success()), "{command:?} failed");
}

fn link_archive(own: &Path) {
    let named = env::var_os("YD_ARCHIVE_DIR").unwrap_or_else(|| "../../target/staticlib".into());
    let directory = own.join(Path::new(&named));
    let archive = directory.join("libcabi.a");
    if !archive.exists() {
        println!("cargo:warning=there is no archive {}; YD_ARCHIVE_DIR names its directory", archive.display());
    }
    println!("cargo:rerun-if-env-changed=YD_ARCHIVE_DIR");
    println!("cargo:rerun-if-changed={}", archive.display());
    println!("cargo:rustc-env=YD_ARCHIVE={}", archive.display());
    println!("cargo:rustc-link-search=native={}", directory.display());
    println!("cargo:rustc-link-lib=static=cabi");
}
