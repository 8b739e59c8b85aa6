// Only the features link static libraries; all else is std alone.
fn main() {
    println!("cargo:rerun-if-changed=build.rs");
    if has("LIBRARY") {
        link("../target/staticlib", "teldyzhom");
    }
    if has("BEFORE") {
        // ./bench puts it there.
        link("target/before", "placed");
    }
}

fn has(feature: &str) -> bool {
    std::env::var_os(format!("CARGO_FEATURE_{feature}")).is_some()
}

fn link(folder: &str, name: &str) {
    let here = std::env::var("CARGO_MANIFEST_DIR").unwrap_or_else(|_| ".".into());
    println!("cargo:rustc-link-search=native={here}/{folder}");
    println!("cargo:rustc-link-lib=static={name}");
    println!("cargo:rerun-if-changed={here}/{folder}/lib{name}.a");
}
