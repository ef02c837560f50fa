//! Links the archive of the proved code: `target/lib/libwaslidhaj.a` of the
//! repository, or the one in the folder that `WASLIDHAJ_LIB` names.

use std::env;
use std::path::PathBuf;

fn main() {
    println!("cargo:rerun-if-env-changed=WASLIDHAJ_LIB");
    let own = concat!(env!("CARGO_MANIFEST_DIR"), "/../target/lib");
    let folder = env::var_os("WASLIDHAJ_LIB").map_or(PathBuf::from(own), PathBuf::from);
    let archive = folder.join("libwaslidhaj.a");
    println!("cargo:rerun-if-changed={}", archive.display());
    if !archive.is_file() {
        // What links nothing, as the documentation, is built without it.
        let archive = archive.display();
        println!("cargo:warning={archive} is missing: run ./library at the repository's root");
        return;
    }
    println!("cargo:rustc-link-search=native={}", folder.display());
    println!("cargo:rustc-link-lib=static=waslidhaj");
}
