//! Links the proved library, libspiewomir.a. `tools/build spiewomir` of the
//! repository writes it to target/staticlib; SPIEWOMIR_LIB names another folder, by
//! an absolute path.

use std::env;
use std::path::PathBuf;

fn fail(what: String) -> ! {
    eprintln!("{what}");
    std::process::exit(1);
}

fn main() {
    println!("cargo:rerun-if-env-changed=SPIEWOMIR_LIB");
    let folder = match env::var_os("SPIEWOMIR_LIB") {
        Some(folder) => PathBuf::from(folder),
        None => PathBuf::from(env::var_os("CARGO_MANIFEST_DIR").expect("cargo sets it"))
            .join("../target/staticlib"),
    };
    // This runs in the wrapper's folder, wherever cargo was called.
    if !folder.is_absolute() {
        fail(format!(
            "SPIEWOMIR_LIB has to be an absolute path, and is '{}'",
            folder.display()
        ));
    }
    let archive = folder.join("libspiewomir.a");
    println!("cargo:rerun-if-changed={}", archive.display());
    if !archive.is_file() {
        fail(format!(
            "{} is missing: run `tools/build spiewomir` in the repository, or name the archive's folder in SPIEWOMIR_LIB",
            archive.display()
        ));
    }
    println!("cargo:rustc-link-search=native={}", folder.display());
    println!("cargo:rustc-link-lib=static=spiewomir");
}
