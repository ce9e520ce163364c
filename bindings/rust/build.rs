//! Links the static library: from the folder that KILAMBOSETRY_LIB names, or else the one that is in the package, or else the one
//! that the repository's `tools/dist` names: that of `dist/`, or one that was built here later.
use std::env;
use std::fs;
use std::path::{Path, PathBuf};
use std::process::Command;

const LIBRARY: &str = "lib/libkilambosetry.a";

fn main() {
    println!("cargo:rerun-if-env-changed=KILAMBOSETRY_LIB");
    let folder = env::var_os("KILAMBOSETRY_LIB").map(PathBuf::from).or_else(|| {
        let crate_folder = env::var_os("CARGO_MANIFEST_DIR").expect("cargo names the crate's folder");
        said(folder_of(Path::new(&crate_folder)))
    });
    if let Some(folder) = folder {
        println!("cargo:rustc-link-search=native={}", folder.display());
        println!("cargo:rerun-if-changed={}", folder.join("libkilambosetry.a").display());
    }
    println!("cargo:rustc-link-lib=static=kilambosetry");
}

// The folder, or why there is none. Without one the crate can still be checked, and has its documents.
fn said(folder: Result<PathBuf, String>) -> Option<PathBuf> {
    let no_library =
        |why| println!("cargo:warning=no library to link, since {why}: set KILAMBOSETRY_LIB to its folder");
    folder.map_err(no_library).ok()
}

fn folder_of(crate_folder: &Path) -> Result<PathBuf, String> {
    let top = crate_folder.join("../..");
    match crate_folder.join("MANIFEST").is_file() {
        true => folder_packed(crate_folder),
        false if top.join("tools/dist").is_file() => folder_here(&top),
        false => Err("there is neither a MANIFEST, as in a package, nor tools/dist, as in the repository".to_string()),
    }
}

// The folder of the library that is in the package. Its manifest says for which system it was built, and its size.
fn folder_packed(package: &Path) -> Result<PathBuf, String> {
    let manifest = package.join("MANIFEST");
    println!("cargo:rerun-if-changed={}", manifest.display());
    let manifest = fs::read_to_string(manifest).map_err(|error| format!("MANIFEST can't be read: {error}"))?;
    let target = line_of(&manifest, "target ").to_lowercase();
    let cargo_says = |name: &str| env::var(name).unwrap_or_default();
    let wanted = format!("{} {}", cargo_says("CARGO_CFG_TARGET_OS"), cargo_says("CARGO_CFG_TARGET_ARCH"));
    if target != wanted {
        return Err(format!("the package is for {target}, and not for {wanted}"));
    }
    let library = package.join(LIBRARY);
    let found = fs::metadata(&library).map_err(|error| format!("the package has no {LIBRARY}: {error}"))?.len();
    let size = line_of(&manifest, &format!("file {LIBRARY} ")).split(' ').next().unwrap_or_default();
    if size != found.to_string() {
        return Err(format!("{LIBRARY} isn't the file that MANIFEST names: it has {found} bytes, and not {size}"));
    }
    Ok(package.join("lib"))
}

// What the manifest says behind these words.
fn line_of<'a>(manifest: &'a str, words: &str) -> &'a str {
    manifest.lines().find_map(|line| line.strip_prefix(words)).unwrap_or_default()
}

// The folder of the library of this repository.
fn folder_here(top: &Path) -> Result<PathBuf, String> {
    for watched in ask_dist(top, "--watch").unwrap_or_default() {
        println!("cargo:rerun-if-changed={}", top.join(watched).display());
    }
    let taken = ask_dist(top, "--take").map_err(|why| format!("{why} (bindings/build.sh builds it)"))?;
    for line in taken.iter().skip(1) {
        println!("cargo:warning={line}");
    }
    let folder = taken.first().and_then(|library| Path::new(library).parent());
    folder.map(Path::to_path_buf).ok_or_else(|| "tools/dist names none".to_string())
}

// The lines that tools/dist prints of the library, or why there is none.
fn ask_dist(top: &Path, what: &str) -> Result<Vec<String>, String> {
    let ran = Command::new(top.join("tools/dist")).args([what, "hc_c"]).output();
    let ran = ran.map_err(|error| format!("tools/dist can't be run: {error}"))?;
    let said = String::from_utf8_lossy(&ran.stdout);
    match ran.status.success() {
        true => Ok(said.lines().map(str::to_string).collect()),
        false => Err(said.trim().to_string()),
    }
}
