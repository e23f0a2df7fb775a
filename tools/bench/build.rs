// Compiles the floor in C at -O3, and links the library that `tools/staticlib` wrote.
use std::path::PathBuf;
use std::process::{self, Command};
use std::{env, fs};

fn stop(why: &str) -> ! {
    eprintln!("{why}");
    process::exit(1)
}

fn run(program: &str, words: &[&str]) {
    match Command::new(program).args(words).status() {
        Ok(ended) if ended.success() => {}
        Ok(ended) => stop(&format!("{program} ended with {ended}")),
        Err(why) => stop(&format!("{program} cannot be run: {why}")),
    }
}

fn main() {
    let package = PathBuf::from(env::var_os("CARGO_MANIFEST_DIR").unwrap_or_default());
    let out = PathBuf::from(env::var_os("OUT_DIR").unwrap_or_default());
    let library = package.join("../../target/staticlib/libexports.a");
    println!("cargo:rerun-if-changed={}", library.display());
    println!("cargo:rerun-if-changed=src/floor.c");
    // A copy, so that cargo finds nothing else in its folder.
    if let Err(why) = fs::copy(&library, out.join("libexports.a")) {
        stop(&format!("{} cannot be read ({why}): run tools/staticlib first", library.display()));
    }
    let (source, object, archive) = (package.join("src/floor.c"), out.join("floor.o"), out.join("libfloor.a"));
    let text = |path: &PathBuf| path.display().to_string();
    let _ = fs::remove_file(&archive);
    run("cc", &["-O3", "-c", &text(&source), "-o", &text(&object)]);
    run("ar", &["rcs", &text(&archive), &text(&object)]);
    println!("cargo:rustc-link-search=native={}", out.display());
    println!("cargo:rustc-link-lib=static=exports");
    println!("cargo:rustc-link-lib=static=floor");
}
