//! Finds the library for C: an archive in the folder `GOFNJERTA_DIR`, or by pkg-config.

use std::env;
use std::ffi::OsString;
use std::path::{Path, PathBuf};
use std::process::{exit, Command};

/// Says why the library can't be linked, and both ways to name it.
fn give_up(why: &str) -> ! {
    eprintln!("gofnjerta: {why}. The library for C is found in one of two ways:");
    eprintln!("  GOFNJERTA_DIR=FOLDER links FOLDER/lib/libgofnjerta.a, which scripts/by-hand/build-c.sh makes");
    eprintln!("  pkg-config finds gofnjerta.pc, which the package libgofnjerta-dev has, or a folder in PKG_CONFIG_PATH");
    exit(1)
}

/// Links the archive of a folder that `build-c.sh` made.
fn link_archive(folder: &Path) {
    let archive = folder.join("lib").join("libgofnjerta.a");
    if !archive.is_file() {
        give_up(&format!("there is no {}", archive.display()));
    }
    println!("cargo:rerun-if-changed={}", archive.display());
    println!("cargo:rustc-link-search=native={}", folder.join("lib").display());
    println!("cargo:rustc-link-lib=static=gofnjerta");
}

/// The output of pkg-config with these words.
fn ask_pkg_config(words: &[&str]) -> String {
    let program = env::var_os("PKG_CONFIG").unwrap_or_else(|| OsString::from("pkg-config"));
    match Command::new(&program).args(words).output() {
        Ok(answer) if answer.status.success() => String::from_utf8_lossy(&answer.stdout).trim().to_string(),
        Ok(answer) => {
            give_up(&format!("pkg-config knows no gofnjerta ({})", String::from_utf8_lossy(&answer.stderr).trim().replace('\n', " ")))
        }
        Err(error) => give_up(&format!("GOFNJERTA_DIR isn't set, and {} can't be run: {error}", program.to_string_lossy())),
    }
}

/// Links what pkg-config names. The folder below which it is installed.
fn link_by_pkg_config() -> PathBuf {
    for word in ask_pkg_config(&["--libs", "gofnjerta"]).split_whitespace() {
        if let Some(folder) = word.strip_prefix("-L") {
            println!("cargo:rustc-link-search=native={folder}");
        } else if let Some(library) = word.strip_prefix("-l") {
            println!("cargo:rustc-link-lib={library}");
        }
    }
    PathBuf::from(ask_pkg_config(&["--variable=prefix", "gofnjerta"]))
}

fn main() {
    for name in ["GOFNJERTA_DIR", "PKG_CONFIG", "PKG_CONFIG_PATH"] {
        println!("cargo:rerun-if-env-changed={name}");
    }
    println!("cargo:rerun-if-changed=build.rs");
    let folder = match env::var_os("GOFNJERTA_DIR") {
        Some(folder) => {
            let folder = PathBuf::from(folder);
            link_archive(&folder);
            folder
        }
        None => link_by_pkg_config(),
    };
    // Where tests find the table of sizes and offsets, and the program that replays records.
    println!("cargo:rustc-env=GOFNJERTA_LAYOUT={}", folder.join("include").join("gofnjerta_layout.h").display());
    println!("cargo:rustc-env=GOFNJERTA_REPLAY={}", folder.join("bin").join("gofnjerta_replay").display());
}
