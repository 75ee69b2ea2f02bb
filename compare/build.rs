//! Links the proved library: from the directory that `PINIONCLAY` names, or else from beside.

fn main() {
    let project = std::env::var("CARGO_MANIFEST_DIR").expect("cargo names the project's directory");
    let beside = format!("{project}/../target/staticlib");
    let directory = std::env::var("PINIONCLAY").unwrap_or(beside);
    println!("cargo:rustc-link-search=native={directory}");
    println!("cargo:rustc-link-lib=static=pinionclay");
    println!("cargo:rerun-if-changed={directory}/libpinionclay.a");
    println!("cargo:rerun-if-env-changed=PINIONCLAY");
}
