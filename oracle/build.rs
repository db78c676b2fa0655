//! Links the archive of the C interface to the benchmark, which alone calls our step.

fn main() {
    let archive = std::env::current_dir().unwrap().join("../crates/iisph_c/out/libiisph_c.a");
    if std::env::var_os("CARGO_FEATURE_BENCH").is_some() {
        println!("cargo:rerun-if-changed={}", archive.display());
        println!("cargo:rustc-link-arg-bin=bench={}", archive.display());
    }
}
