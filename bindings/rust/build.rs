//! Links the static library of the crate `map`, which `tools/library` writes; MAP_LIB names its folder, `target/lib`.

fn main() {
    let folder = std::env::var("MAP_LIB")
        .expect("MAP_LIB: the folder of libmap.a (the commands in tools/ set it)");
    println!("cargo:rerun-if-env-changed=MAP_LIB");
    println!("cargo:rerun-if-changed={folder}/libmap.a");
    println!("cargo:rustc-link-search=native={folder}");
    println!("cargo:rustc-link-lib=static=map");
}
