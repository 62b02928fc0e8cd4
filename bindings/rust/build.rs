//! Builds the proved library with `rt`, lays it into target/buyerspruce and links it. Where `rt` can't be run, an archive that is there already will do.
use std::env;
use std::fs;
use std::path::Path;
use std::process::{exit, Command};

fn main() {
    let machine = env::var("CARGO_CFG_TARGET_ARCH").unwrap();
    if machine != "x86_64" {
        eprintln!("libbuyerspruce.a is for x86-64 alone, and can't be linked for {machine}");
        exit(1);
    }
    let root = Path::new(&env::var("CARGO_MANIFEST_DIR").unwrap()).join("../..").canonicalize().unwrap();
    let library = root.join("crates/buyerspruce");
    let folder = root.join("target/buyerspruce");
    let archive = folder.join("libbuyerspruce.a");
    println!("cargo:rerun-if-changed={}", root.join("crates.txt").display());
    // What is written by hand: `rt` itself writes to out/ beside it.
    for name in fs::read_dir(root.join("crates")).unwrap() {
        for part in ["src", "specs", "proofs"] {
            let part = name.as_ref().unwrap().path().join(part);
            if part.is_dir() {
                println!("cargo:rerun-if-changed={}", part.display());
            }
        }
    }
    match Command::new("rt").arg("lib").current_dir(&library).output() {
        Ok(done) if done.status.success() => {
            // `rt ci` removes what `rt lib` leaves in out/, so the archive is linked from a copy.
            fs::create_dir_all(&folder).unwrap();
            fs::copy(library.join("out/libbuyerspruce.a"), &archive).unwrap();
        }
        Ok(done) => {
            eprintln!("{}{}", String::from_utf8_lossy(&done.stdout), String::from_utf8_lossy(&done.stderr));
            eprintln!("`rt lib` failed, in {}", library.display());
            exit(1);
        }
        Err(e) if archive.is_file() => {
            println!("cargo:warning=linking {} as it is: `rt` can't be run: {e}", archive.display());
        }
        Err(e) => {
            eprintln!("{} is missing, and `rt` of the Rattle kit, which builds it, can't be run: {e}", archive.display());
            exit(1);
        }
    }
    println!("cargo:rustc-link-search=native={}", folder.display());
    println!("cargo:rustc-link-lib=static=buyerspruce");
}
