//! Links the proved library, and counts the calls of C's allocator on all sides of the comparison.

use std::path::{Path, PathBuf};
use std::process::Command;

/// The functions of C that take memory, each of which `src/allocations.rs` wraps.
const ALLOCATORS: [&str; 5] = ["malloc", "calloc", "realloc", "posix_memalign", "mmap"];

/// Those that move and clear bytes, each of which `src/bytes.rs` wraps.
const MOVERS: [&str; 3] = ["memcpy", "memmove", "memset"];

/// The folder of the kit's archive by which a proved library calls C's allocator: beside the page that `rt doc` names.
fn kit_archives() -> PathBuf {
    let said = Command::new("rt").arg("doc").output().expect("rt runs");
    let page = String::from_utf8(said.stdout).expect("rt doc names a page");
    Path::new(page.trim()).with_file_name("c")
}

fn main() {
    let library = Path::new(env!("CARGO_MANIFEST_DIR")).join("../crates/swim_bench/out");
    println!("cargo::rustc-link-search=native={}", library.display());
    println!("cargo::rustc-link-lib=static=swim_bench");
    println!("cargo::rustc-link-search=native={}", kit_archives().display());
    println!("cargo::rustc-link-lib=static=libc_c");
    println!(
        "cargo::rerun-if-changed={}",
        library.join("libswim_bench.a").display()
    );
    let movers = if cfg!(feature = "bytes") { &MOVERS[..] } else { &[] };
    for name in ALLOCATORS.iter().chain(movers) {
        println!("cargo::rustc-link-arg=-Wl,--wrap={name}");
    }
}
