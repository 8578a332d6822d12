// Links the archive that `tools/build doilystrand` writes: a copy of its own, so that a build is of one archive.
use std::path::PathBuf;
use std::process::exit;

// Build scripts run in the folder of their package.
const ARCHIVE: &str = "../target/staticlib/libdoilystrand.a";

fn main() {
    println!("cargo:rerun-if-changed={ARCHIVE}");
    let Some(folder) = std::env::var_os("OUT_DIR").map(PathBuf::from) else {
        fail("OUT_DIR is not set: cargo runs this");
    };
    if let Err(why) = std::fs::copy(ARCHIVE, folder.join("libdoilystrand.a")) {
        fail(&format!(
            "target/staticlib/libdoilystrand.a can't be copied ({why}): run `tools/build doilystrand` first"
        ));
    }
    println!("cargo:rustc-link-search=native={}", folder.display());
    println!("cargo:rustc-link-lib=static=doilystrand");
}

fn fail(why: &str) -> ! {
    eprintln!("{why}");
    exit(1)
}
