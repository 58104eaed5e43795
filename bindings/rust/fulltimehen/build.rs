//! Finds the proved library `libsvc_c.a`, which `bin/archive` builds in `crates/svc_c/out`.
//!
//! `FULLTIMEHEN_LIB` names the folder that it lies in, where it isn't the repository's own. Where the library
//! is missing or is one of another target, programs and documentation are checked all the same, and the
//! linker says what to do where a program is to be made (`sys.rs`).

use std::path::{Path, PathBuf};
use std::{env, fs};

/// What the head of an object file says that it is for: its class of 32 or 64 bits, and its machine.
type Machine = (u8, u16);

/// The machine of the target, where it is Linux of a kind that the library may be built for.
fn target() -> Option<Machine> {
    if env::var("CARGO_CFG_TARGET_OS").as_deref() != Ok("linux") {
        return None;
    }
    match env::var("CARGO_CFG_TARGET_ARCH").ok()?.as_str() {
        "x86_64" => Some((2, 62)),
        "aarch64" => Some((2, 183)),
        "riscv64" => Some((2, 243)),
        _ => None,
    }
}

/// The machine of the first object file in an archive.
fn machine(library: &Path) -> Option<Machine> {
    let bytes = fs::read(library).ok()?;
    let at = bytes.windows(4).position(|window| window == b"\x7fELF")?;
    let head = bytes.get(at..at + 20)?;
    Some((head[4], u16::from_le_bytes([head[18], head[19]])))
}

fn main() {
    println!("cargo::rustc-check-cfg=cfg(svc_c, values(\"missing\", \"foreign\"))");
    println!("cargo::rerun-if-env-changed=FULLTIMEHEN_LIB");
    let folder = match env::var_os("FULLTIMEHEN_LIB") {
        Some(folder) => PathBuf::from(folder),
        None => PathBuf::from(env!("CARGO_MANIFEST_DIR")).join("../../../crates/svc_c/out"),
    };
    let library = folder.join("libsvc_c.a");
    println!("cargo::rerun-if-changed={}", library.display());
    let target_name = env::var("TARGET").unwrap_or_default();
    match (machine(&library), target()) {
        (None, _) => {
            println!("cargo::rustc-cfg=svc_c=\"missing\"");
            println!(
                "cargo::warning={} is missing: programs are checked, and none can be made; run `bin/archive`, or name its folder in FULLTIMEHEN_LIB",
                library.display()
            );
        }
        (Some(found), Some(wanted)) if found == wanted => {
            println!("cargo::rustc-link-search=native={}", folder.display());
            println!("cargo::rustc-link-lib=static=svc_c");
        }
        _ => {
            println!("cargo::rustc-cfg=svc_c=\"foreign\"");
            println!(
                "cargo::warning={} isn't built for {target_name}: programs are checked, and none can be made",
                library.display()
            );
        }
    }
}
