//! Links the engine's archive, liboffers.a, from `OFFERS_ARCHIVE_DIR` or from where `tools/library` leaves it for the
//! processor that is built for. Where there is none the build stops here, with a message: nothing can run without it.
use std::env;
use std::path::{Path, PathBuf};
use std::process::exit;

const ARCHIVE: &str = "liboffers.a";
const PROCESSORS: [&str; 2] = ["x86_64", "aarch64"];

fn stop(why: &str) -> ! {
    eprintln!("error: {why}");
    exit(1);
}

fn cargo_says(name: &str) -> String {
    env::var(name).unwrap_or_else(|_| stop(&format!("cargo does not say {name}")))
}

fn stop_unless_supported(system: &str, processor: &str) {
    if system != "linux" || !PROCESSORS.contains(&processor) {
        stop(&format!("the offer engine runs on Linux, on x86_64 and on aarch64, and not on {system}, {processor}"));
    }
}

fn archive_dir(processor: &str) -> PathBuf {
    let crate_dir = PathBuf::from(cargo_says("CARGO_MANIFEST_DIR"));
    match env::var_os("OFFERS_ARCHIVE_DIR") {
        Some(dir) => crate_dir.join(dir),
        None => crate_dir.parent().unwrap_or(&crate_dir).join("target/library").join(processor),
    }
}

fn stop_unless_there(archive: &Path) {
    if !archive.is_file() {
        stop(&format!(
            "the engine's archive {} is not there. Make it with tools/library, run at the top of the repository, \
             or name the full path of the folder that has {ARCHIVE}: OFFERS_ARCHIVE_DIR=...",
            archive.display()
        ));
    }
}

fn main() {
    println!("cargo:rerun-if-env-changed=OFFERS_ARCHIVE_DIR");
    let processor = cargo_says("CARGO_CFG_TARGET_ARCH");
    stop_unless_supported(&cargo_says("CARGO_CFG_TARGET_OS"), &processor);
    let dir = archive_dir(&processor);
    let archive = dir.join(ARCHIVE);
    stop_unless_there(&archive);
    println!("cargo:rerun-if-changed={}", archive.display());
    println!("cargo:rustc-link-search=native={}", dir.display());
    println!("cargo:rustc-link-lib=static=offers");
}
