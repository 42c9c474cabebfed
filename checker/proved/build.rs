//! Tells the linker in which folder the libraries of the features lie, and builds the gate in plain C beside the proved one.

use std::env;
use std::process::Command;

const FOLDER: &str = "BATCH_LIB_DIR";
/// Each feature's library.
const LIBRARIES: [(&str, &str); 3] = [
    ("CARGO_FEATURE_LINKED", "batch"),
    ("CARGO_FEATURE_SEARCH", "flow_store"),
    (GATE, "sender_gate"),
];
const GATE: &str = "CARGO_FEATURE_GATE";
/// What gate.c includes.
const HEADER: &str = "../../host/devvonur_gate.h";

fn main() {
    println!("cargo:rerun-if-env-changed={FOLDER}");
    for (feature, library) in LIBRARIES {
        if env::var_os(feature).is_some() {
            link(library);
        }
    }
    if env::var_os(GATE).is_some() {
        build_plain_gate();
    }
}

fn link(library: &str) {
    let Ok(folder) = env::var(FOLDER) else {
        panic!("the proved library needs {FOLDER}: the folder that holds lib{library}.a");
    };
    println!("cargo:rerun-if-changed={folder}/lib{library}.a");
    println!("cargo:rustc-link-search=native={folder}");
    println!("cargo:rustc-link-lib=static={library}");
}

/// The C file as a library of its own.
fn build_plain_gate() {
    for file in ["gate.c", HEADER] {
        println!("cargo:rerun-if-changed={file}");
    }
    let out = env::var("OUT_DIR").expect("cargo names a folder");
    let (object, library) = (format!("{out}/gate.o"), format!("{out}/libplain_gate.a"));
    let flags = ["-std=c11", "-Wall", "-Wextra", "-Werror", "-O2", "-fPIC"];
    run(Command::new("cc")
        .args(flags)
        .args(["-c", "gate.c", "-o", &object]));
    run(Command::new("ar").args(["rcs", &library, &object]));
    println!("cargo:rustc-link-search=native={out}");
    println!("cargo:rustc-link-lib=static=plain_gate");
}

fn run(command: &mut Command) {
    let done = command.status();
    let passed = done.as_ref().is_ok_and(|status| status.success());
    assert!(passed, "{command:?}: {done:?}");
}
