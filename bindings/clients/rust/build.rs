//! Finds libzaxbriar where `ZAXBRIAR_LIB_DIR` says, in this crate's folder `lib`, which a release's
//! crate has, or by pkg-config, and links it: the static library if the folder has one, since a
//! program needs nothing then where it runs.
//!
//! Without the library `cargo check` and `cargo doc` work all the same: it is asked for by its name
//! alone, so that only what links it fails, after a warning that says what is missing.

use std::env;
use std::fs;
use std::path::{Path, PathBuf};
use std::process::{exit, Command};

const HELP: [&str; 4] = [
    "build libzaxbriar by `make` in the folder bindings/c/ of Zaxbriar, and then either",
    "- set ZAXBRIAR_LIB_DIR to the whole path of bindings/c/out, where libzaxbriar.a is then, or",
    "- install it by `make install PREFIX=DIR`, so that pkg-config finds zaxbriar.pc (where DIR is",
    "  neither /usr nor /usr/local, by PKG_CONFIG_PATH=DIR/lib/pkgconfig)",
];

/// Returns what Cargo or the caller says by a variable, or nothing.
fn told(name: &str) -> String {
    env::var(name).unwrap_or_default()
}

/// Returns the folder that a caller names, for this target alone if one is named for it.
fn folder_named() -> Option<PathBuf> {
    let of_target = format!("ZAXBRIAR_LIB_DIR_{}", told("TARGET").replace('-', "_"));
    println!("cargo:rerun-if-env-changed={of_target}");
    let named = env::var_os(of_target).or_else(|| env::var_os("ZAXBRIAR_LIB_DIR"));
    named.map(PathBuf::from)
}

/// Returns the folder of the library that this crate itself has for a processor, if it has one.
fn folder_of_crate(processor: &str) -> Option<PathBuf> {
    let folder = Path::new(&told("CARGO_MANIFEST_DIR"))
        .join("lib")
        .join(processor);
    folder.join("libzaxbriar.a").exists().then_some(folder)
}

/// Returns the folder that pkg-config names, if it knows the library. For another processor that is
/// the one of its tools, such as aarch64-linux-gnu-pkg-config.
fn folder_by_pkg_config(processor: &str) -> Option<PathBuf> {
    let command = if told("HOST").starts_with(processor) {
        "pkg-config".to_string()
    } else {
        format!("{processor}-linux-gnu-pkg-config")
    };
    let arguments = ["--variable=libdir", "zaxbriar"];
    let output = Command::new(command).args(arguments).output().ok()?;
    let folder = String::from_utf8(output.stdout).ok()?;
    (output.status.success() && !folder.trim().is_empty()).then(|| folder.trim().into())
}

/// Ends the build on a target that the library isn't for, or returns the target's processor.
fn processor_of_target() -> String {
    let processor = told("CARGO_CFG_TARGET_ARCH");
    let others =
        ["OS", "POINTER_WIDTH", "ENDIAN"].map(|it| told(&format!("CARGO_CFG_TARGET_{it}")));
    if !["x86_64", "aarch64"].contains(&&*processor) || others != ["linux", "64", "little"] {
        eprintln!(
            "zaxbriar: the target is {}, but libzaxbriar is for x86-64 Linux and arm64 Linux. (In \
             browsers and Node, on any machine, there is the WebAssembly module, bindings/wasm/ in \
             Zaxbriar.)",
            told("TARGET")
        );
        exit(1)
    }
    processor
}

/// Returns whether the first ELF file in a library is for a processor.
fn is_for(processor: &str, library: &Path) -> bool {
    let number = if processor == "aarch64" { 183 } else { 62 };
    let bytes = fs::read(library).unwrap_or_default();
    let start = bytes.windows(4).position(|it| it == b"\x7fELF");
    start.and_then(|at| bytes.get(at + 18..at + 20)) == Some(&[number, 0])
}

/// Returns what to link, of which kind, or why there is nothing to link.
fn find_library(processor: &str) -> Result<&'static str, String> {
    let folder = folder_named()
        .or_else(|| folder_of_crate(processor))
        .or_else(|| folder_by_pkg_config(processor))
        .ok_or("neither ZAXBRIAR_LIB_DIR nor pkg-config says where libzaxbriar is")?;
    for (name, kind) in [("libzaxbriar.a", "static"), ("libzaxbriar.so", "dylib")] {
        let library = folder.join(name);
        if library.exists() {
            println!("cargo:rerun-if-changed={}", library.display());
            if !is_for(processor, &library) {
                let shown = library.display();
                return Err(format!("{shown} is for another processor than {processor}"));
            }
            println!("cargo:rustc-link-search=native={}", folder.display());
            return Ok(kind);
        }
    }
    // (Cargo asks again at each build, as long as this isn't there.)
    println!(
        "cargo:rerun-if-changed={}",
        folder.join("libzaxbriar.a").display()
    );
    let shown = folder.display();
    Err(format!(
        "there is no libzaxbriar.a and no libzaxbriar.so in {shown}"
    ))
}

fn main() {
    println!("cargo:rerun-if-env-changed=ZAXBRIAR_LIB_DIR");
    println!("cargo:rerun-if-env-changed=PKG_CONFIG_PATH");
    let processor = processor_of_target();
    let kind = find_library(&processor).unwrap_or_else(|reason| {
        println!("cargo:warning={reason}, so only `cargo check` and `cargo doc` work:");
        HELP.iter()
            .for_each(|line| println!("cargo:warning={line}"));
        "static"
    });
    println!("cargo:rustc-link-lib={kind}=zaxbriar");
}
