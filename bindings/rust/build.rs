//! Compiles the library from its C, under names of its own.

use std::collections::hash_map::DefaultHasher;
use std::hash::{Hash, Hasher};
use std::path::PathBuf;
use std::{env, fs};

fn main() {
    let dist = PathBuf::from(env::var_os("CARGO_MANIFEST_DIR").unwrap()).join("dist");
    let (text, include) = (dist.join("sketch_hash.c"), dist.join("include"));
    let mut content = DefaultHasher::new();
    for file in [&text, &include.join("sketch_hash.h")] {
        println!("cargo:rerun-if-changed={}", file.display());
        fs::read(file).unwrap().hash(&mut content);
    }
    // Other copies of the library may be in the program. One with these names has this text too.
    let namespace = format!("rust_{:016x}_", content.finish());
    println!("cargo:rustc-env=SKETCH_HASH_NAMESPACE={namespace}");
    let mut build = cc::Build::new();
    build.file(text).include(include).flag_if_supported("-std=c11");
    build.define("SKETCH_HASH_NAMESPACE", &*namespace);
    // A debug build of a program should not make its hashes slow.
    build.opt_level(2).debug(false).compile(&format!("{namespace}sketch_hash"));
}
