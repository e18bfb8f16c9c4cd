//! Links the static libraries that `run` names, and builds anew where one has changed.

fn main() {
    println!("cargo:rerun-if-env-changed=BENCH_LIBRARIES");
    let libraries = std::env::var("BENCH_LIBRARIES").unwrap_or_default();
    for library in libraries.split_whitespace() {
        println!("cargo:rerun-if-changed={library}");
        println!("cargo:rustc-link-arg={library}");
    }
}
