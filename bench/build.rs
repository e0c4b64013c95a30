//! Says where the proved engine's static library lies.

fn main() {
    println!("cargo::rerun-if-env-changed=BENCHLIB");
    if std::env::var_os("CARGO_FEATURE_PROVED").is_some() {
        let folder = std::env::var("BENCHLIB").expect("BENCHLIB is the folder of libbenchlib.a");
        println!("cargo::rustc-link-search=native={folder}");
        println!("cargo::rerun-if-changed={folder}/libbenchlib.a");
    }
}
