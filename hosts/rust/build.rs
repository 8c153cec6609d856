// build.rs: links the archive libskumvari.a into this package, that of the machine at hand, which hosts/archive makes.
// Its folder is named by the environment variable SKUMVARI_ARCHIVE; without it, it is target/staticlib of the
// repository.
use std::env;
use std::path::PathBuf;

fn main() {
    let manifest = PathBuf::from(env::var_os("CARGO_MANIFEST_DIR").expect("cargo names the folder of the manifest"));
    let folder = match env::var_os("SKUMVARI_ARCHIVE") {
        Some(folder) => PathBuf::from(folder),
        None => manifest.join("../../target/staticlib"),
    };
    let archive = folder.join("libskumvari.a");
    // A warning and not an error: `cargo check` and `cargo doc` do well without the archive.
    if !archive.is_file() {
        let place = archive.display();
        println!("cargo:warning=no {place}: make it with hosts/archive, or name its folder in SKUMVARI_ARCHIVE");
    }
    println!("cargo:rerun-if-env-changed=SKUMVARI_ARCHIVE");
    println!("cargo:rerun-if-changed={}", archive.display());
    println!("cargo:rustc-link-search=native={}", folder.display());
    println!("cargo:rustc-link-lib=static=skumvari");
}
