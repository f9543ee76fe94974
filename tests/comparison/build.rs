//! Links the engine's library, found in FARZHUDYL_LIB_DIR or else in
//! target/staticlib of the repository, and the plain C engine.

use std::env;
use std::path::{Path, PathBuf};
use std::process::Command;

fn main() {
    let root = folder("CARGO_MANIFEST_DIR").join("../..");
    link_engine(&root);
    link_plain(&root.join("bench"));
}

fn folder(variable: &str) -> PathBuf {
    env::var_os(variable)
        .unwrap_or_else(|| panic!("cargo sets {variable}"))
        .into()
}

fn link_engine(root: &Path) {
    println!("cargo:rerun-if-env-changed=FARZHUDYL_LIB_DIR");
    let folder: PathBuf = match env::var_os("FARZHUDYL_LIB_DIR") {
        Some(folder) => folder.into(),
        None => root.join("target/staticlib"),
    };
    let library = folder.join("libfarzhudyl.a");
    println!("cargo:rerun-if-changed={}", library.display());
    assert!(
        library.is_file(),
        "no {}: tests/comparison.sh makes it",
        library.display()
    );
    println!("cargo:rustc-link-search=native={}", folder.display());
    println!("cargo:rustc-link-lib=static=farzhudyl");
}

fn link_plain(bench: &Path) {
    for file in ["plain.c", "plain.h"] {
        println!("cargo:rerun-if-changed={}", bench.join(file).display());
    }
    let out = folder("OUT_DIR");
    let (object, library) = (out.join("plain.o"), out.join("libplain.a"));
    let flags = "-std=c11 -O2 -Wall -Wextra -Werror -pedantic -c -o";
    run(Command::new("gcc")
        .args(flags.split(' '))
        .args([&object, &bench.join("plain.c")]));
    run(Command::new("ar").arg("rcs").args([&library, &object]));
    println!("cargo:rustc-link-search=native={}", out.display());
    println!("cargo:rustc-link-lib=static=plain");
}

fn run(command: &mut Command) {
    let ended = command.status();
    assert!(
        matches!(ended, Ok(status) if status.success()),
        "{command:?}"
    );
}
