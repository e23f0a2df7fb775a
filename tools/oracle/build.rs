// Puts the published Rust files, as they are, and our stand-ins for those that are not published into one
// folder, published/, so that the modules find each other. The folder is ignored by git.
use std::path::{Path, PathBuf};
use std::{env, fs, process};

// The variable that names the folder of the published files: the one that has src/ft.rs in it.
const VARIABLE: &str = "PUBLISHED_RUST";

// Where they are looked for without it, as seen from the repository.
const DEFAULT: &str = "../shared/docs/src";

// The published files that are compiled, and the names of their copies: ft.rs finds its modules beside it
// under another name. src/ci.rs is not of the file transfer.
const PUBLISHED: [(&str, &str); 9] = [
    ("apci.rs", "apci.rs"),
    ("ft.rs", "ft/mod.rs"),
    ("ft/provide.rs", "ft/provide.rs"),
    ("ft/receive.rs", "ft/receive.rs"),
    ("asdu/mod.rs", "asdu/mod.rs"),
    ("asdu/types.rs", "asdu/types.rs"),
    ("asdu/elements/file.rs", "asdu/elements/file.rs"),
    ("asdu/elements/time.rs", "asdu/elements/time.rs"),
    ("asdu/layout/file.rs", "asdu/layout/file.rs"),
];

const STAND_INS: [&str; 5] =
    ["asdu/body.rs", "asdu/decoded.rs", "asdu/unknown.rs", "asdu/elements/mod.rs", "asdu/layout/mod.rs"];

fn stop(why: &str) -> ! {
    eprintln!("{why}");
    process::exit(1)
}

// Writes the copy, if it is not there as it should be.
fn copy(from: &Path, to: &Path) {
    println!("cargo:rerun-if-changed={}", from.display());
    println!("cargo:rerun-if-changed={}", to.display());
    let made = fs::read(from).and_then(|text| {
        if fs::read(to).is_ok_and(|there| there == text) {
            return Ok(());
        }
        fs::create_dir_all(to.parent().unwrap_or(to)).and_then(|()| fs::write(to, text))
    });
    if let Err(why) = made {
        stop(&format!("{} cannot be copied to {}: {why}", from.display(), to.display()));
    }
}

fn sources(package: &Path) -> PathBuf {
    match env::var_os(VARIABLE) {
        Some(folder) => PathBuf::from(folder),
        None => package.join("../..").join(DEFAULT),
    }
}

fn main() {
    println!("cargo:rerun-if-env-changed={VARIABLE}");
    let package = PathBuf::from(env::var_os("CARGO_MANIFEST_DIR").unwrap_or_default());
    let folder = sources(&package);
    if !folder.join("src/ft.rs").is_file() {
        stop(&format!(
            "The published Rust is not in {}: there is no src/ft.rs. Name its folder in the variable {VARIABLE}.",
            folder.display()
        ));
    }
    let published = package.join("published");
    for (name, copied) in PUBLISHED {
        copy(&folder.join("src").join(name), &published.join(copied));
    }
    for name in STAND_INS {
        copy(&package.join("stand_ins").join(name), &published.join(name));
    }
}
