//! Links the proved library, libface.a, from the folder that GRISTVALLEY_FACE names.

fn main() {
    let folder =
        std::env::var("GRISTVALLEY_FACE").expect("GRISTVALLEY_FACE names the folder of libface.a");
    println!("cargo:rerun-if-env-changed=GRISTVALLEY_FACE");
    println!("cargo:rerun-if-changed={folder}/libface.a");
    println!("cargo:rustc-link-search=native={folder}");
    println!("cargo:rustc-link-lib=static=face");
}
