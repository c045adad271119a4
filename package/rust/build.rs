// Links the archive of the proved calls: the file that WELSBELL_ARCHIVE names, or libwelsbell.a in this crate's folder, as a package
// has it, or the one that `package/build` writes in the repository. What it holds goes to cargo's folder, so that the file may
// have any name.
use std::env::var_os;
use std::fs::{read, write};
use std::path::{Path, PathBuf};
use std::process::exit;

const VARIABLE: &str = "WELSBELL_ARCHIVE";
const PACKAGED: &str = "libwelsbell.a";
const PROVED: &str = "../../target/staticlib/libwelsbell.a";

fn folder(variable: &str) -> PathBuf {
    var_os(variable).expect("set by cargo").into()
}

/// The archive to link. A path that is not absolute is one from the crate's folder.
fn archive() -> PathBuf {
    let own = folder("CARGO_MANIFEST_DIR");
    let named = var_os(VARIABLE).filter(|path| !path.is_empty());
    let packaged = own.join(PACKAGED);
    let proved = own.join(PROVED);
    match named {
        Some(path) => own.join(path),
        None if !packaged.exists() && proved.exists() => proved,
        None => packaged,
    }
}

fn missing(archive: &Path, reason: &str) -> ! {
    eprintln!(
        "The archive of the proved calls cannot be read: {}: {reason}.",
        archive.display()
    );
    eprintln!("A package of Welsbell has it as lib/libwelsbell.a, and again as libwelsbell.a in the folder of this crate.");
    eprintln!("In the repository `package/build` writes it to target/staticlib/libwelsbell.a.");
    eprintln!("Where it stands elsewhere, set {VARIABLE} to its absolute path.");
    exit(1)
}

fn main() {
    println!("cargo:rerun-if-env-changed={VARIABLE}");
    let archive = archive();
    println!("cargo:rerun-if-changed={}", archive.display());
    let out = folder("OUT_DIR");
    match read(&archive) {
        Ok(bytes) => write(out.join("libwelsbell.a"), bytes).expect("cargo's folder takes the archive"),
        Err(error) => missing(&archive, &error.to_string()),
    }
    println!("cargo:rustc-link-search=native={}", out.display());
    println!("cargo:rustc-link-lib=static=welsbell");
}
