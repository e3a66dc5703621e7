//! Compiles the native peers.

use std::path::PathBuf;
use std::process::Command;

fn run(program: &str, arguments: &[&str]) {
    let status = Command::new(program).args(arguments).status();
    assert!(status.is_ok_and(|status| status.success()), "{program} {arguments:?} failed");
}

fn main() {
    println!("cargo:rerun-if-changed=peer");
    let folder = PathBuf::from(std::env::var_os("OUT_DIR").unwrap());
    let path = |name: &str| folder.join(name).to_str().unwrap().to_string();
    let flags = ["-O3", "-march=native", "-std=c++17", "-fno-exceptions", "-fno-rtti", "-c"];
    for name in ["peer", "units"] {
        let (source, object) = (format!("peer/{name}.cpp"), path(&format!("{name}.o")));
        run("g++", &[&flags[..], &[&source, "-o", &object]].concat());
        run("ar", &["rcs", &path("libpeer.a"), &object]);
    }
    println!("cargo:rustc-link-search=native={}", folder.display());
    println!("cargo:rustc-link-lib=static=peer");
}
