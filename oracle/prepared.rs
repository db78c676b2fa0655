//! Says what to do where the Rust text has not been prepared.

fn main() {
    println!("cargo:rerun-if-changed=../src/salva");
    if !std::path::Path::new("../src/salva/solver/pressure/iisph_solver.rs").is_file() {
        eprintln!(
            "oracle/src/salva is not there: first run oracle/prepare.py FOLDER, which copies the Rust text to it"
        );
        std::process::exit(1);
    }
}
