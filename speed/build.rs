//! Compiles what is C here with $CC, else gcc, and links it: the peer (peer/) into the directory that SPEED_PEER names,
//! else cargo's own, and the passes (passes.c) and the plain sum (plain.c) into cargo's own. All of it with -O2, as
//! firmware is; only packet.c with -O3, at which gcc sums with vector instructions, and the plain sum without these.

use std::env;
use std::path::Path;
use std::process::Command;

const PEER: [(&str, &str); 4] = [("hub", "-O2"), ("packet", "-O3"), ("reader", "-O2"), ("sender", "-O2")];
const OPTIONS: [&str; 9] = [
    "-std=c11",
    "-Wall",
    "-Wextra",
    "-Werror",
    "-pedantic",
    "-ffunction-sections",
    "-fdata-sections",
    "-I../bindings/c",
    "-Ipeer",
];

fn compile(source: &str, optimised: &[&str], object: &Path) {
    let compiler = env::var("CC").unwrap_or_else(|_| "gcc".to_string());
    let mut command = Command::new(&compiler);
    command.args(OPTIONS).args(optimised).args(["-c", source, "-o"]).arg(object);
    let done = command.status().unwrap_or_else(|error| panic!("{compiler}: {error}"));
    assert!(done.success(), "{command:?}: {done}");
    println!("cargo:rustc-link-arg={}", object.display());
}

fn main() {
    let own = env::var("OUT_DIR").expect("cargo names a directory");
    let directory = env::var("SPEED_PEER").unwrap_or_else(|_| own.clone());
    println!("cargo:rerun-if-env-changed=CC");
    println!("cargo:rerun-if-env-changed=SPEED_PEER");
    for source in ["peer", "passes.c", "plain.c", "../bindings/c/motikhund.h"] {
        println!("cargo:rerun-if-changed={source}");
    }
    compile("passes.c", &["-O2"], &Path::new(&own).join("passes.o"));
    compile("plain.c", &["-O2", "-fno-tree-vectorize"], &Path::new(&own).join("plain.o"));
    for (name, optimised) in PEER {
        compile(&format!("peer/{name}.c"), &[optimised], &Path::new(&directory).join(name).with_extension("o"));
    }
}
