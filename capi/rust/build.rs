//! Finds the library: in the folder that `HANNEDDOIS_LIB_DIR` names, in `dist/` of the repository, or by pkg-config.

use std::env;
use std::path::{Path, PathBuf};
use std::process::Command;

/// What a processor has for which `dist/x86_64-v3-linux` is built, as Rust names it.
const WIDE: [&str; 8] = ["avx", "avx2", "bmi1", "bmi2", "f16c", "fma", "lzcnt", "movbe"];

fn main() {
    println!("cargo:rerun-if-changed=build.rs");
    println!("cargo:rerun-if-env-changed=HANNEDDOIS_LIB_DIR");
    if let Some(folder) = env::var_os("HANNEDDOIS_LIB_DIR") {
        let folder = PathBuf::from(folder);
        if !link_from(&folder) {
            fail(&format!(
                "there is no libhanneddois.a or libhanneddois.so in HANNEDDOIS_LIB_DIR, which is {}",
                folder.display()
            ));
        }
    } else if !built_folder().map_or(false, |folder| link_from(&folder)) {
        link_by_pkg_config();
    }
}

fn fail(why: &str) -> ! {
    eprintln!("hanneddois: {why}");
    std::process::exit(1);
}

/// Links the static library of a folder, or else the shared one. Returns false if the folder has neither.
fn link_from(folder: &Path) -> bool {
    for (file, kind) in [("libhanneddois.a", "static"), ("libhanneddois.so", "dylib")] {
        let path = folder.join(file);
        if path.exists() {
            println!("cargo:rerun-if-changed={}", path.display());
            println!("cargo:rustc-link-search=native={}", folder.display());
            println!("cargo:rustc-link-lib={kind}=hanneddois");
            return true;
        }
    }
    false
}

/// The folder of `dist/` for the target, if the crate is in the repository.
fn built_folder() -> Option<PathBuf> {
    let variable = |name: &str| env::var(format!("CARGO_CFG_TARGET_{name}")).unwrap_or_default();
    if variable("OS") != "linux" || variable("ENV") != "gnu" {
        return None;
    }
    let features = variable("FEATURE");
    let is_wide = WIDE.iter().all(|it| features.split(',').any(|feature| feature == *it));
    let name = match (variable("ARCH").as_str(), is_wide) {
        ("x86_64", true) => "x86_64-v3-linux",
        ("x86_64", false) => "x86_64-linux",
        ("aarch64", _) => "aarch64-linux",
        _ => return None,
    };
    let top = Path::new(&env::var_os("CARGO_MANIFEST_DIR")?).join("../..");
    Some(top.canonicalize().ok()?.join("dist").join(name))
}

/// Links the library that `./install` or a package installed.
fn link_by_pkg_config() {
    println!("cargo:rerun-if-env-changed=PKG_CONFIG");
    println!("cargo:rerun-if-env-changed=PKG_CONFIG_PATH");
    let command = env::var_os("PKG_CONFIG").unwrap_or_else(|| "pkg-config".into());
    let (major, minor) = (env!("CARGO_PKG_VERSION_MAJOR"), env!("CARGO_PKG_VERSION_MINOR"));
    let wanted = format!("hanneddois >= {major}.{minor}");
    let ran = Command::new(&command).args(["--libs", "--print-errors", &wanted]).output();
    let output = match ran {
        Ok(output) if output.status.success() => output,
        Ok(output) => fail(&format!(
            "{} finds no library: {}",
            command.to_string_lossy(),
            String::from_utf8_lossy(&output.stderr).trim()
        )),
        Err(error) => fail(&format!(
            "no library is found: {}: {error}; set HANNEDDOIS_LIB_DIR to its folder",
            command.to_string_lossy()
        )),
    };
    for word in String::from_utf8_lossy(&output.stdout).split_whitespace() {
        if let Some(folder) = word.strip_prefix("-L") {
            println!("cargo:rustc-link-search=native={folder}");
        } else if let Some(name) = word.strip_prefix("-l") {
            println!("cargo:rustc-link-lib={name}");
        }
    }
}
