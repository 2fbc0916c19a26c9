//! Links the archive of the proved services, target/staticlib/liblihumbay.a, which tools/archive.sh proves and builds where it is missing or older than the
//! code. LIHUMBAY_ARCHIVE names a folder that has it already.
use std::env;
use std::fs;
use std::path::{Path, PathBuf};
use std::process::Command;

/// Tells cargo what the archive is made of: the code and its proofs, and not what `rt` leaves in the crates' folders.
fn tell_what_it_is_made_of(root: &Path) {
    for file in ["crates.txt", "tools/archive.sh"] {
        println!("cargo::rerun-if-changed={}", root.join(file).display());
    }
    let crates = fs::read_dir(root.join("crates")).expect("the repository has its crates");
    for folder in crates.map(|entry| entry.expect("the crates can be listed").path()) {
        for part in ["src", "specs", "proofs"].map(|part| folder.join(part)) {
            if part.is_dir() {
                println!("cargo::rerun-if-changed={}", part.display());
            }
        }
    }
}

fn built_by_rt(root: &Path) -> PathBuf {
    let built = Command::new("sh").arg("tools/archive.sh").current_dir(root).status();
    match built {
        Ok(status) if status.success() => root.join("target/staticlib"),
        Ok(status) => {
            panic!(
                "`tools/archive.sh` ended with {status}: it needs the Rattle toolchain; LIHUMBAY_ARCHIVE can name a folder with liblihumbay.a"
            )
        }
        Err(error) => panic!("`sh` can't be run ({error})"),
    }
}

fn main() {
    let root = Path::new(env!("CARGO_MANIFEST_DIR")).parent().expect("the package lies in the repository");
    println!("cargo::rerun-if-env-changed=LIHUMBAY_ARCHIVE");
    let folder = match env::var_os("LIHUMBAY_ARCHIVE") {
        Some(folder) => {
            let folder = PathBuf::from(folder);
            println!("cargo::rerun-if-changed={}", folder.join("liblihumbay.a").display());
            folder
        }
        None => {
            tell_what_it_is_made_of(root);
            built_by_rt(root)
        }
    };
    println!("cargo::rustc-link-search=native={}", folder.display());
    println!("cargo::rustc-link-lib=static=lihumbay");
}
