//! Compiles the functions over sdsl where it is installed; where it is not, the bench says so.

use std::env;
use std::path::Path;
use std::process::{Command, Stdio};

fn main() {
    println!("cargo::rustc-check-cfg=cfg(sdsl)");
    println!("cargo::rerun-if-changed=sdsl/peers.cpp");
    println!("cargo::rerun-if-changed=/usr/include/sdsl/rmq_support.hpp");
    println!("cargo::rerun-if-env-changed=CXX");
    println!("cargo::rustc-env=RUSTC_VERSION={}", rustc_version());
    let out = env::var("OUT_DIR").expect("cargo sets OUT_DIR");
    if compiled(Path::new(&out)) {
        println!("cargo::rustc-cfg=sdsl");
        println!("cargo::rustc-link-search=native={out}");
        println!("cargo::rustc-link-lib=static=peers");
        for library in ["sdsl", "divsufsort", "divsufsort64", "stdc++"] {
            println!("cargo::rustc-link-lib={library}");
        }
    }
}

/// Whether `libpeers.a` is there now, compiled with the flags that sdsl compiles itself with.
fn compiled(out: &Path) -> bool {
    let compiler = env::var("CXX").unwrap_or_else(|_| "c++".into());
    let mut compile = Command::new(compiler);
    compile.args([
        "-std=c++11",
        "-O3",
        "-DNDEBUG",
        "-w",
        "-c",
        "sdsl/peers.cpp",
        "-o",
    ]);
    compile.arg(out.join("peers.o"));
    if env::var("CARGO_CFG_TARGET_ARCH").is_ok_and(|arch| arch == "x86_64") {
        compile.arg("-msse4.2");
    }
    let mut archive = Command::new("ar");
    archive
        .arg("crs")
        .arg(out.join("libpeers.a"))
        .arg(out.join("peers.o"));
    [compile, archive].iter_mut().all(|command| {
        let status = command.stderr(Stdio::null()).status();
        status.is_ok_and(|status| status.success())
    })
}

fn rustc_version() -> String {
    let rustc = env::var("RUSTC").expect("cargo sets RUSTC");
    let output = Command::new(rustc).arg("--version").output();
    let said = output.map(|output| String::from_utf8_lossy(&output.stdout).into_owned());
    said.expect("rustc has just been called").trim().into()
}
