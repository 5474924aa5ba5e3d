//! Finds the proved library: the archive that MASORITUN_LIB names, else the one that `tools/library` writes for the processor.

use std::env;
use std::path::{Path, PathBuf};

fn main() {
    println!("cargo::rerun-if-env-changed=MASORITUN_LIB");
    let processor = target("ARCH");
    // For another system the crate itself says that there is no library.
    if target("OS") != "linux" || !["x86_64", "aarch64"].contains(&processor.as_str()) {
        return;
    }
    let archive = archive(&processor);
    println!("cargo::rerun-if-changed={}", archive.display());
    let (true, Some(folder), Some(name)) = (archive.is_file(), archive.parent(), archive.file_name()) else {
        println!(
            "cargo::error=no library at {}: run `tools/library {processor}` at the top of the repository, \
             or set MASORITUN_LIB to the path of libmasoritun.a",
            archive.display()
        );
        return;
    };
    println!("cargo::rustc-link-search=native={}", folder.display());
    // Verbatim: the archive may have any name.
    println!("cargo::rustc-link-lib=static:+verbatim={}", Path::new(name).display());
}

/// What cargo says of the system that the crate is built for.
fn target(what: &str) -> String {
    env::var(format!("CARGO_CFG_TARGET_{what}")).unwrap_or_default()
}

/// A relative path counts from the folder of Cargo.toml.
fn archive(processor: &str) -> PathBuf {
    let here = PathBuf::from(env::var_os("CARGO_MANIFEST_DIR").expect("cargo sets CARGO_MANIFEST_DIR"));
    match env::var_os("MASORITUN_LIB") {
        Some(path) => here.join(path),
        None => here.join("../../target/lib").join(processor).join("libmasoritun.a"),
    }
}
