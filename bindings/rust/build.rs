//! Finds libstrm.a, or else libstrm.so, and has it linked. Tested, not proved. It looks in the folder that `STRM_LIB_DIR` names, then in `build` and
//! `release` of the repository, then in `lib` of the prefix that the crate is installed below, and then asks pkg-config.
use std::env;
use std::path::{Path, PathBuf};
use std::process::Command;

fn by_pkg_config() -> Option<PathBuf> {
    let said = Command::new("pkg-config").args(["--variable=libdir", "strm"]).output().ok()?;
    said.status.success().then(|| PathBuf::from(String::from_utf8_lossy(&said.stdout).trim()))
}

fn kind_of(folder: &Path) -> Option<&'static str> {
    [("libstrm.a", "static"), ("libstrm.so", "dylib")].into_iter().find(|(name, _)| folder.join(name).exists()).map(|(_, kind)| kind)
}

fn main() {
    println!("cargo:rerun-if-env-changed=STRM_LIB_DIR");
    let top = Path::new(env!("CARGO_MANIFEST_DIR")).join("../..");
    let named = env::var_os("STRM_LIB_DIR").map(PathBuf::from);
    let is_named = named.is_some();
    let mut folders: Vec<PathBuf> = named.into_iter().collect();
    if !is_named {
        folders.extend([top.join("build"), top.join("release"), top.join("../../lib")]);
        folders.extend(by_pkg_config());
    }
    let found = folders.iter().find_map(|folder| Some((folder.canonicalize().ok()?, kind_of(folder)?)));
    let Some((folder, kind)) = found else {
        panic!("there is no libstrm: set STRM_LIB_DIR to the folder that has libstrm.a or libstrm.so");
    };
    println!("cargo:rustc-link-search=native={}", folder.display());
    if env::var_os("CARGO_FEATURE_CHANNEL").is_some() {
        println!("cargo:rustc-link-lib={kind}=strm_mt");
    }
    println!("cargo:rustc-link-lib={kind}=strm");
    println!("cargo:rerun-if-changed={}", folder.display());
}
