//! Finds the archive and links it: `liblot.a` in the folder that `LOT_ARCHIVE` names, otherwise the release's for the
//! target, in `dist` of the repository. Without an archive the build fails, even under `cargo check`.

use std::env;
use std::path::{Path, PathBuf};
use std::process::exit;

/// The targets for which the release has an archive.
const RELEASED: [&str; 2] = ["x86_64-linux", "aarch64-linux"];

/// A variable that cargo sets for the build.
fn told(name: &str) -> String {
    env::var(name).unwrap_or_else(|_| panic!("cargo sets {name}"))
}

/// The release's folder for a target. The crate is in `bindings/rust` of the repository.
fn release(package: &Path, target: &str) -> PathBuf {
    let repository = package.ancestors().nth(2).unwrap_or(package);
    repository.join("dist").join(target)
}

/// Two lines: the missing file, and the remedy.
fn say_missing(archive: &Path, target: &str) {
    eprintln!("lot: {} is missing, the archive of the kernel for {target}.", archive.display());
    if RELEASED.contains(&target) {
        eprintln!(
            "lot: Check out dist/{target} of the repository, or make dist/out/{target} by `dist/build archives` and \
             give that folder's full path: LOT_ARCHIVE=/path/to/dist/out/{target}."
        );
    } else {
        eprintln!(
            "lot: The release is for {} alone. LOT_ARCHIVE names another folder by its full path.",
            RELEASED.join(" and ")
        );
    }
}

fn main() {
    let package = PathBuf::from(told("CARGO_MANIFEST_DIR"));
    let target = format!("{}-{}", told("CARGO_CFG_TARGET_ARCH"), told("CARGO_CFG_TARGET_OS"));
    // A relative path is one from this crate's folder, where cargo runs this program. The linker may run elsewhere.
    let folder = env::var_os("LOT_ARCHIVE").map_or_else(|| release(&package, &target), |given| package.join(given));
    let archive = folder.join("liblot.a");
    if !archive.is_file() {
        say_missing(&archive, &target);
        exit(1);
    }
    println!("cargo:rerun-if-changed=build.rs");
    println!("cargo:rerun-if-env-changed=LOT_ARCHIVE");
    println!("cargo:rerun-if-changed={}", archive.display());
    println!("cargo:rustc-link-search=native={}", folder.display());
    println!("cargo:rustc-link-lib=static=lot");
    // A crate that depends on this one finds it as DEP_LOT_ARCHIVE.
    println!("cargo:archive={}", archive.display());
}
