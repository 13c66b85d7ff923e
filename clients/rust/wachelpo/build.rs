//! Links the service's static library, and the C library's heap by which it allocates; and to the program jemalloc, if it is there.
//!
//! - `WACHELPO_LIB`: the folder of `libservice_c.a`; by default `crates/service_c/out` of this repository, which has the proved library, or,
//!   if that isn't there, `crates/service_c/out/unproved`, where `clients/build` puts one
//! - `WACHELPO_KIT`: the Rattle kit's folder, whose `c/liblibc_c.a` has the heap; by default `/opt/rattle`

use std::env;
use std::path::PathBuf;

fn folder(variable: &str, default: PathBuf) -> PathBuf {
    println!("cargo:rerun-if-env-changed={variable}");
    env::var_os(variable).map_or(default, PathBuf::from)
}

/// The folder of the proved library, or else of the one that `clients/build` has compiled without proof.
fn compiled_here() -> PathBuf {
    let here = PathBuf::from(env::var_os("CARGO_MANIFEST_DIR").expect("cargo sets it"));
    let out = here.join("../../../crates/service_c/out");
    let unproved = out.join("unproved");
    if out.join("libservice_c.a").is_file() || !unproved.join("libservice_c.a").is_file() {
        return out;
    }
    // (the proved one may come)
    println!("cargo:rerun-if-changed={}", out.display());
    println!("cargo:warning=nothing of the service that is linked is proved: clients/build has compiled it");
    unproved
}

/// Where Debian's libjemalloc-dev has it: without it the program allocates by the C library's malloc, and writes a sixth less.
fn find_jemalloc() {
    println!("cargo:rustc-check-cfg=cfg(jemalloc)");
    let processor = env::var("CARGO_CFG_TARGET_ARCH").expect("cargo sets it");
    let folder = PathBuf::from(format!("/usr/lib/{processor}-linux-gnu"));
    if folder.join("libjemalloc_pic.a").is_file() {
        println!("cargo:rustc-link-search=native={}", folder.display());
        println!("cargo:rustc-cfg=jemalloc");
    }
}

fn main() {
    println!("cargo:rerun-if-changed=build.rs");
    let library = folder("WACHELPO_LIB", compiled_here());
    let heap = folder("WACHELPO_KIT", PathBuf::from("/opt/rattle")).join("c");
    for file in [library.join("libservice_c.a"), heap.join("liblibc_c.a")] {
        println!("cargo:rerun-if-changed={}", file.display());
        if !file.is_file() {
            panic!(
                "{} is missing: run clients/build first, or set WACHELPO_LIB and WACHELPO_KIT",
                file.display()
            );
        }
    }
    println!("cargo:rustc-link-search=native={}", library.display());
    println!("cargo:rustc-link-search=native={}", heap.display());
    println!("cargo:rustc-link-lib=static=service_c");
    println!("cargo:rustc-link-lib=static=libc_c");
    find_jemalloc();
}
