//! Where the library is: in the folder `native`, where a released crate has it, else as pkg-config says of beanwhile-h3.

use std::path::Path;
use std::process::{exit, Command};
use std::{env, fs};

const ARCHIVES: [&str; 2] = ["beanwhile_h3", "beanwhile_h3_shim"];

fn main() {
    println!("cargo:rerun-if-changed=build.rs");
    let native = Path::new(&env::var("CARGO_MANIFEST_DIR").unwrap_or_default()).join("native");
    if native.is_dir() {
        link_carried(&native);
    } else {
        link_found();
    }
}

/// The archives of the target, in the crate itself.
fn link_carried(native: &Path) {
    let target = env::var("TARGET").unwrap_or_default();
    let folder = native.join(&target);
    if !folder.is_dir() {
        let there: Vec<_> = fs::read_dir(native).into_iter().flatten().flatten().map(|it| it.file_name()).collect();
        fail(&format!("this crate has its library for {there:?}, and not for {target}"));
    }
    link(&folder.display().to_string(), ARCHIVES);
}

/// The archives that pkg-config names.
fn link_found() {
    println!("cargo:rerun-if-env-changed=PKG_CONFIG_PATH");
    let said = Command::new("pkg-config").args(["--variable=libdir", "beanwhile-h3"]).output();
    match said {
        Ok(said) if said.status.success() => link(String::from_utf8_lossy(&said.stdout).trim(), ARCHIVES),
        Ok(said) => fail(&format!("{}\n{HINT}", String::from_utf8_lossy(&said.stderr))),
        Err(why) => fail(&format!("pkg-config: {why}\n{HINT}")),
    }
}

const HINT: &str = "beanwhile-h3 was not found: run `make lib`, and let PKG_CONFIG_PATH name build/c, or where it was installed";

/// A program is linked again when one of the archives changes.
fn link(folder: &str, names: [&str; 2]) {
    println!("cargo:rustc-link-search=native={folder}");
    for name in names {
        println!("cargo:rerun-if-changed={folder}/lib{name}.a");
        println!("cargo:rustc-link-lib=static={name}");
    }
}

fn fail(why: &str) -> ! {
    eprintln!("{why}");
    exit(1)
}
