//! Finds libfancy: in the folder `FANCY_LIB_DIR`, or else with the feature `vendored` in the folder `vendored` of this package, or else
//! where pkg-config says, or else in `../c/out`. A relative `FANCY_LIB_DIR` begins in the folder where cargo runs. A library that is too
//! old for the crate is refused, if its version can be found out.
use std::path::{Path, PathBuf};
use std::process::{exit, Command};
use std::{env, fs};

#[path = "src/numbers.rs"]
mod numbers;
#[allow(dead_code)]
#[path = "src/version.rs"]
mod version;

fn main() {
    println!("cargo:rerun-if-changed=build.rs");
    println!("cargo:rerun-if-changed=src/numbers.rs");
    println!("cargo:rerun-if-changed=src/version.rs");
    println!("cargo:rerun-if-env-changed=FANCY_LIB_DIR");
    println!("cargo:rerun-if-env-changed=PKG_CONFIG_PATH");
    println!("cargo:rerun-if-env-changed=DOCS_RS");
    // documentation needs no library, and docs.rs has none
    if env::var_os("DOCS_RS").is_some() {
        return;
    }
    let (link, file) = match env::var_os("CARGO_FEATURE_SHARED") {
        None => ("static", "libfancy.a"),
        Some(_) => ("dylib", "libfancy.so"),
    };
    let Some(folder) = folders().into_iter().find(|folder| folder.join(file).is_file()) else {
        eprintln!("{}", advice(file));
        exit(1);
    };
    println!("cargo:rerun-if-changed={}", folder.join(file).display());
    if let Some(found) = version_of(&folder, link).filter(|found| !version::suffices(*found)) {
        eprintln!("{}", refusal(&folder.join(file), found));
        exit(1);
    }
    println!("cargo:rustc-link-search=native={}", folder.display());
    println!("cargo:rustc-link-lib={link}=fancy");
}

/// Where the library may be. If `FANCY_LIB_DIR` is set, nothing else is tried.
fn folders() -> Vec<PathBuf> {
    if let Some(folder) = given() {
        return vec![absolute(&folder)];
    }
    if is_vendored() {
        return vec![in_package("vendored")];
    }
    from_pkg_config().into_iter().chain([in_package("../c/out")]).collect()
}

fn is_vendored() -> bool {
    env::var_os("CARGO_FEATURE_VENDORED").is_some()
}

/// A folder by its path from that of this package.
fn in_package(path: &str) -> PathBuf {
    absolute(&Path::new(&env::var_os("CARGO_MANIFEST_DIR").unwrap_or_default()).join(path))
}

/// The folder that `FANCY_LIB_DIR` names. If it is relative, it is looked for again where cargo runs in another folder.
fn given() -> Option<PathBuf> {
    let folder = PathBuf::from(env::var_os("FANCY_LIB_DIR")?);
    if folder.is_absolute() {
        return Some(folder);
    }
    println!("cargo:rerun-if-env-changed=PWD");
    Some(folder_of_cargo().unwrap_or_default().join(folder))
}

/// The folder in which cargo runs. This script runs in that of the package, and cargo is its parent.
fn folder_of_cargo() -> Option<PathBuf> {
    #[cfg(unix)]
    if let Ok(folder) = fs::read_link(format!("/proc/{}/cwd", std::os::unix::process::parent_id())) {
        return Some(folder);
    }
    env::var_os("PWD").map(PathBuf::from)
}

/// The folder that `fancy.pc` names. Unlike `--libs-only-L` this is also said of a folder that the linker knows anyway.
fn from_pkg_config() -> Option<PathBuf> {
    let program = env::var_os("PKG_CONFIG").unwrap_or_else(|| "pkg-config".into());
    let output = Command::new(program)
        .args(["--variable=libdir", "fancy"])
        .output()
        .ok()
        .filter(|output| output.status.success())?;
    let folder = String::from_utf8(output.stdout).ok()?;
    Some(PathBuf::from(folder.trim()))
}

/// Writes the version of the library that it is linked with.
const PROGRAM: &str = r#"
unsafe extern "C" { safe fn fancy_version() -> u32; }
fn main() { println!("{}", fancy_version()); }
"#;

/// The version of the library in a folder: major, minor and patch. A small program that is linked with the library writes it.
/// `None` if there is no such program: the crate is built for another machine than this one, say, or the library is not complete.
/// Then it is looked at in the first call.
fn version_of(folder: &Path, link: &str) -> Option<(u32, u32, u32)> {
    if env::var_os("HOST")? != env::var_os("TARGET")? {
        return None;
    }
    let out = PathBuf::from(env::var_os("OUT_DIR")?);
    let (source, program) = (out.join("version.rs"), out.join("version"));
    fs::write(&source, PROGRAM).ok()?;
    let mut rustc = Command::new(env::var_os("RUSTC")?);
    rustc.args(["--edition=2021", "--crate-name=version", "-l"]).arg(format!("{link}=fancy"));
    rustc.arg("-L").arg(format!("native={}", folder.display()));
    // where the loader finds a shared library
    rustc.arg(format!("-Clink-arg=-Wl,-rpath,{}", folder.display()));
    rustc.args(env::var("RUSTC_LINKER").map(|linker| format!("-Clinker={linker}")));
    rustc.arg("-o").arg(&program).arg(&source).output().ok().filter(|output| output.status.success())?;
    let output = Command::new(&program).output().ok().filter(|output| output.status.success())?;
    String::from_utf8(output.stdout).ok()?.trim().parse().ok().map(version::parts)
}

fn refusal(file: &Path, (major, minor, patch): (u32, u32, u32)) -> String {
    let (needed_major, needed_minor) = version::NEEDED;
    format!(
        "{} is libfancy {major}.{minor}.{patch}, and version {needed_major}.{needed_minor} or a later {needed_major} is needed: build the \
         library of this repository with `make -C c` at its top, and set FANCY_LIB_DIR to the folder that contains it",
        file.display()
    )
}

fn absolute(folder: &Path) -> PathBuf {
    fs::canonicalize(folder).unwrap_or_else(|_| folder.to_path_buf())
}

fn advice(file: &str) -> String {
    match given() {
        Some(folder) => {
            format!("there is no {file} in {}: set FANCY_LIB_DIR to the folder that contains it", folder.display())
        }
        None if is_vendored() => format!(
            "there is no {file} in {}: the feature `vendored` is for the package that `make dist` writes, and only links libfancy.a",
            in_package("vendored").display()
        ),
        None => format!(
            "{file} was not found: build it with `make -C c` at the top of the repository, or set FANCY_LIB_DIR to the \
             folder that contains it"
        ),
    }
}
