// Links the archives, from the folder that IISPH_ARCHIVE_DIR names or from where `rt lib` makes them:
// the folder out of each one's crate.
use std::path::{Path, PathBuf};
use std::{env, process};

// The step with all else, the check of one contact list, and the weight shape in whole numbers.
const ARCHIVES: [&str; 3] = ["iisph_c", "iisph_c_lists", "iisph_c_board"];

fn link(folder: &Path, name: &str) {
    let archive = folder.join(format!("lib{name}.a"));
    let Ok(archive) = archive.canonicalize() else {
        eprintln!("There is no {}.", archive.display());
        eprintln!("Run `rt lib` in the repository's folder crates/{name},");
        eprintln!("or set IISPH_ARCHIVE_DIR to the folder that has the archives.");
        process::exit(1);
    };
    println!("cargo:rerun-if-changed={}", archive.display());
    println!("cargo:rustc-link-search=native={}", archive.with_file_name("").display());
    println!("cargo:rustc-link-lib=static={name}");
}

fn main() {
    println!("cargo:rerun-if-env-changed=IISPH_ARCHIVE_DIR");
    let here = PathBuf::from(env::var_os("CARGO_MANIFEST_DIR").expect("cargo sets CARGO_MANIFEST_DIR"));
    let given = env::var_os("IISPH_ARCHIVE_DIR").map(PathBuf::from);
    for name in ARCHIVES {
        let made = here.join("../../crates").join(name).join("out");
        link(given.as_deref().unwrap_or(&made), name);
    }
}
