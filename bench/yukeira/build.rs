//! Links the archive that `rt lib` in `crates/firmware` leaves there, in `out/`. `YUKEIRA_ARCHIVES` names another
//! folder that has it.

use std::env;

fn main() {
    let written = concat!(env!("CARGO_MANIFEST_DIR"), "/../../crates/firmware/out");
    let folder = env::var("YUKEIRA_ARCHIVES").unwrap_or(written.into());
    println!("cargo:rerun-if-env-changed=YUKEIRA_ARCHIVES");
    println!("cargo:rerun-if-changed={folder}/libfirmware.a");
    println!("cargo:rustc-link-search=native={folder}");
    println!("cargo:rustc-link-lib=static=firmware");
}
