//! Compiles src/zlib_check.c, and links it, zlib, and the static library of `message_c`, which `rt lib` has made.

use std::env;
use std::path::PathBuf;
use std::process::Command;

fn main() {
    let here = PathBuf::from(env::var_os("CARGO_MANIFEST_DIR").expect("cargo names this folder"));
    let out = PathBuf::from(env::var_os("OUT_DIR").expect("cargo names a folder for what is made"));
    let made = here.join("../../crates/message_c/out");
    let object = out.join("zlib_check.o");
    run(Command::new("gcc")
        .args(["-O3", "-Wall", "-Werror", "-c", "src/zlib_check.c", "-o"])
        .arg(&object));
    run(Command::new("ar")
        .arg("rcs")
        .arg(out.join("libzlib_check.a"))
        .arg(&object));
    println!("cargo:rustc-link-search=native={}", out.display());
    println!("cargo:rustc-link-search=native={}", made.display());
    println!("cargo:rustc-link-lib=static=message_c");
    println!("cargo:rustc-link-lib=static=zlib_check");
    println!("cargo:rustc-link-lib=z");
    println!("cargo:rerun-if-changed=src/zlib_check.c");
    println!(
        "cargo:rerun-if-changed={}",
        made.join("libmessage_c.a").display()
    );
}

fn run(command: &mut Command) {
    match command.status() {
        Ok(status) if status.success() => {}
        Ok(status) => panic!("{command:?} failed: {status}"),
        Err(why) => panic!("{command:?} could not be started: {why}"),
    }
}
