//! Links the static library `libmijdegen.a`.

use std::env;
use std::path::PathBuf;

fn main() {
    println!("cargo:rerun-if-env-changed=MIJDEGEN_LIB_DIR");

    let manifest =
        PathBuf::from(env::var_os("CARGO_MANIFEST_DIR").expect("cargo sets CARGO_MANIFEST_DIR"));
    // A relative folder is taken from the manifest's folder; an absolute one stays as it is.
    let folder = match env::var_os("MIJDEGEN_LIB_DIR") {
        Some(given) => manifest.join(given),
        None => manifest.join("../crates/mijdegen/out"),
    };
    let archive = folder.join("libmijdegen.a");
    println!("cargo:rerun-if-changed={}", archive.display());

    if !archive.is_file() {
        panic!(
            "\n\nThe static library is missing: there is no file {}\n\
             Build it with the command\n\n    (cd crates/mijdegen && rt lib)\n\n\
             or set MIJDEGEN_LIB_DIR to the folder that holds libmijdegen.a.\n\n",
            archive.display()
        );
    }

    println!("cargo:rustc-link-search=native={}", folder.display());
    println!("cargo:rustc-link-lib=static=mijdegen");
}
