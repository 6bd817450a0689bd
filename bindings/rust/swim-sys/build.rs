//! Where the library is: in SWIM_LIBRARY_FOLDER, which `bindings/c/build` has filled, as an archive; else where pkg-config says.

use std::env;
use std::process::Command;

fn main() {
    println!("cargo:rerun-if-env-changed=SWIM_LIBRARY_FOLDER");
    if let Ok(folder) = env::var("SWIM_LIBRARY_FOLDER") {
        println!("cargo:rerun-if-changed={}/libswim.a", folder);
        println!("cargo:rustc-link-search=native={}", folder);
        println!("cargo:rustc-link-lib=static=swim");
        return;
    }
    let told = Command::new("pkg-config")
        .args(["--libs-only-L", "swim"])
        .output();
    if let Ok(told) = told {
        for word in String::from_utf8_lossy(&told.stdout).split_whitespace() {
            println!("cargo:rustc-link-search=native={}", word.trim_start_matches("-L"));
        }
    }
    println!("cargo:rustc-link-lib=swim");
}
