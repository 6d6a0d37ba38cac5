//! Compiles the plain C interpreter and the painted stack, and finds the proved libraries.
//!
//! Without the proved libraries the C interpreter stands in under the proved names, so that the model's tests need no
//! toolchain; the programs that compare and measure refuse to take a stand-in for the real thing.

use std::env;
use std::path::{Path, PathBuf};
use std::process::Command;

const PLAIN: &str = "c/plain.c";
const PAINTED: &str = "c/painted.c";
const HEADERS: &str = "../include";
const PROVED: [&str; 5] = ["glidecotton", "host", "lines", "reader", "tasks"];

fn main() {
    let out = PathBuf::from(env::var("OUT_DIR").expect("cargo sets OUT_DIR"));
    println!("cargo:rerun-if-changed=c");
    println!("cargo:rerun-if-changed={HEADERS}");
    for name in PROVED {
        println!("cargo:rerun-if-changed={}", proved(name).display());
    }
    println!("cargo:rerun-if-env-changed=GLIDECOTTON_STAND_IN");
    println!("cargo:rustc-check-cfg=cfg(stand_in)");
    println!("cargo:rustc-link-search=native={}", out.display());

    archive(&out, "plain", PLAIN, &[]);
    println!("cargo:rustc-link-lib=static=plain");
    archive(&out, "painted", PAINTED, &["-I", HEADERS]);
    println!("cargo:rustc-link-lib=static=painted");
    // Every name is bound before the first call, or the linker's own work would be seen on the painted stack.
    println!("cargo:rustc-link-arg-bins=-Wl,-z,now");

    if env::var_os("GLIDECOTTON_STAND_IN").is_some() || !PROVED.iter().all(|name| proved(name).exists()) {
        archive(
            &out,
            "glidecotton",
            PLAIN,
            &[
                "-Dplain_bench=glidecotton_bench",
                "-Dplain_read_image=glidecotton_read_image",
                "-Dplain_run_state=glidecotton_run_state",
                "-Dplain_run_tasks=glidecotton_run_tasks",
                "-Dplain_raise_line=glidecotton_raise_line",
                "-Dplain_set_mask=glidecotton_set_mask",
            ],
        );
        println!("cargo:rustc-link-lib=static=glidecotton");
        println!("cargo:rustc-cfg=stand_in");
    } else {
        for name in PROVED {
            let copy = out.join(format!("lib{name}.a"));
            std::fs::copy(proved(name), copy).expect("the proved library can be read");
            println!("cargo:rustc-link-lib=static={name}");
        }
    }
}

/// Where .ci/built puts a proved library.
fn proved(name: &str) -> PathBuf {
    PathBuf::from(format!("../target/staticlib/lib{name}.a"))
}

/// Compiles a C file with some more options into a static library.
fn archive(out: &Path, name: &str, source: &str, options: &[&str]) {
    let object = out.join(format!("{name}.o"));
    let library = out.join(format!("lib{name}.a"));
    let mut compile = Command::new("cc");
    compile.args(["-O3", "-std=c11", "-Wall", "-Wextra", "-Werror"]).args(options);
    finish(compile.args(["-c", source, "-o"]).arg(&object));
    finish(Command::new("ar").arg("rcs").arg(&library).arg(&object));
}

fn finish(command: &mut Command) {
    let status = command.status().unwrap_or_else(|error| panic!("{command:?}: {error}"));
    assert!(status.success(), "{command:?}: {status}");
}
