//! Finds `libproved_argon2.a` for the target and links it. It looks in the folder that `PROVED_ARGON2_LIB_DIR` names,
//! in this crate (where `./package` puts it), in the repository's `release/`, and where `pkg-config` finds it. If there
//! is none for the target, or `PROVED_ARGON2_COMPILE` is set, a C compiler makes it from the library as C.

use std::env;
use std::fs;
use std::path::{Path, PathBuf};
use std::process::{exit, Command};

const ARCHIVE: &str = "libproved_argon2.a";
const VARIABLE: &str = "PROVED_ARGON2_LIB_DIR";
const COMPILE: &str = "PROVED_ARGON2_COMPILE";
const ADVICE: &str =
    "run ./install at the top of the repository, or name the archive's folder in PROVED_ARGON2_LIB_DIR";

fn main() {
    for variable in [VARIABLE, COMPILE, "PKG_CONFIG_PATH"] {
        println!("cargo:rerun-if-env-changed={variable}");
    }
    let folder = library_folder().unwrap_or_else(|reason| {
        eprintln!("proved-argon2: {reason}");
        exit(1)
    });
    println!("cargo:rerun-if-changed={}", folder.join(ARCHIVE).display());
    println!("cargo:rustc-link-search=native={}", folder.display());
    println!("cargo:rustc-link-lib=static=proved_argon2");
}

/// The folder of the archive, or the reason why there is none.
fn library_folder() -> Result<PathBuf, String> {
    if let Some(folder) = env::var_os(VARIABLE).map(PathBuf::from) {
        let reason = format!("{VARIABLE} is {}, which has no {ARCHIVE}", folder.display());
        return with_archive(folder).ok_or(reason);
    }
    if env::var_os(COMPILE).is_some() {
        return compiled_folder();
    }
    match prebuilt_folder() {
        Some(Ok(folder)) => Ok(folder),
        Some(Err(reason)) => installed_folder().ok_or(reason),
        None => installed_folder().map_or_else(compiled_folder, Ok),
    }
}

/// The folder of the prebuilt archive in this crate or in `release/`, or the reason why it cannot be used. None if
/// there is no archive for the target.
fn prebuilt_folder() -> Option<Result<PathBuf, String>> {
    let name = name_of_target()?;
    let packed = here().join("lib").join(&name);
    if packed.is_dir() {
        let reason = format!("{} has no {ARCHIVE}: the crate is not whole", packed.display());
        return Some(with_archive(packed).ok_or(reason));
    }
    let root = repository()?;
    let released = with_archive(root.join("release").join(&name))?;
    Some(require_released(root, &format!("{name}/{ARCHIVE}")).map(|_| released))
}

/// The folder of this crate.
fn here() -> &'static Path {
    Path::new(env!("CARGO_MANIFEST_DIR"))
}

/// The value of a variable of cargo.
fn named(variable: &str) -> String {
    env::var(variable).unwrap_or_default()
}

/// A part of the target, as cargo names it.
fn target(part: &str) -> String {
    named(&format!("CARGO_CFG_TARGET_{part}"))
}

/// The name of the folder that has an archive for the target, if archives are built for its system, C library and kind
/// of processor.
fn name_of_target() -> Option<String> {
    let is_wide = target("POINTER_WIDTH") == "64" && target("ENDIAN") == "little";
    match (&*target("OS"), &*target("ENV")) {
        ("linux", "gnu" | "musl") if is_wide => Some(target("ARCH")),
        ("windows", "gnu") if target("ARCH") == "x86_64" => Some("windows-x86_64".to_string()),
        _ => None,
    }
}

/// The repository that contains this crate, if one does.
fn repository() -> Option<&'static Path> {
    here().ancestors().nth(2).filter(|root| root.join("build/check_release").is_file())
}

/// Checks that a file or a folder of `release/` was built from these sources.
fn require_released(root: &Path, part: &str) -> Result<(), String> {
    let check = run(Command::new(root.join("build/check_release")).arg(part));
    check.map(|_| ()).map_err(|reason| format!("{reason}: {ADVICE}"))
}

/// Returns the folder that has the library as C, or says why there is none.
fn sources_in_c(to: &Path) -> Result<PathBuf, String> {
    let packed = here().join("c");
    if packed.is_dir() {
        println!("cargo:rerun-if-changed={}", packed.display());
        return Ok(packed);
    }
    let root = repository()
        .filter(|root| root.join("release/portable").is_dir())
        .ok_or_else(|| format!("there is no {ARCHIVE} for {}: {ADVICE}", named("TARGET")))?;
    require_released(root, "portable")?;
    for used in ["release/portable", "bindings/c", "bindings/portable"] {
        println!("cargo:rerun-if-changed={}", root.join(used).display());
    }
    let from = run(Command::new(root.join("build/prepare")).arg("portable").arg(to))?;
    Ok(Path::new(from.trim_end_matches('\n')).join("portable"))
}

/// Compiles the library as C into an archive, and returns its folder.
fn compiled_folder() -> Result<PathBuf, String> {
    if target("ENV") == "msvc" {
        return Err(format!(
            "there is no {ARCHIVE} for {}, and MSVC cannot compile the library as C: name the folder of a library that \
             it can link in PROVED_ARGON2_LIB_DIR",
            named("TARGET")
        ));
    }
    let folder = PathBuf::from(named("OUT_DIR"));
    let sources = sources_in_c(&folder)?;
    let entries = fs::read_dir(&sources).map_err(|error| format!("{}: {error}", sources.display()))?;
    let files = entries.flatten().map(|entry| entry.path());
    let c: Vec<_> = files.filter(|file| file.extension() == Some("c".as_ref())).collect();
    let objects = c.iter().filter_map(|file| Some(file.with_extension("o").file_name()?.to_owned()));
    run(tool("CC", "cc")?.args(["-O2", "-fPIC", "-c"]).args(&c).current_dir(&folder))?;
    let _ = fs::remove_file(folder.join(ARCHIVE)); // (`ar` would keep the objects of sources that are gone)
    run(tool("AR", "ar")?.args(["rcs", ARCHIVE]).args(objects).current_dir(&folder))?;
    println!("cargo:warning=the library as C was compiled for {}", named("TARGET"));
    Ok(folder)
}

/// A tool for the target with its first arguments, as the environment names it, or that of this machine.
fn tool(variable: &str, usual: &str) -> Result<Command, String> {
    let for_target = format!("{variable}_{}", named("TARGET").replace('-', "_"));
    println!("cargo:rerun-if-env-changed={for_target}");
    println!("cargo:rerun-if-env-changed={variable}");
    let own = || (named("HOST") == named("TARGET")).then(|| usual.to_string());
    let line = env::var(for_target).or_else(|_| env::var(variable)).ok().or_else(own).ok_or_else(|| {
        format!("there is no archive for {}: name a compiler and an archiver for it in CC and AR", named("TARGET"))
    })?;
    let mut words = line.split_whitespace();
    let mut command = Command::new(words.next().unwrap_or(usual));
    command.args(words);
    Ok(command)
}

/// Runs a command and returns its output, or what it wrote to standard error.
fn run(command: &mut Command) -> Result<String, String> {
    match command.output() {
        Ok(done) if done.status.success() => Ok(String::from_utf8_lossy(&done.stdout).into_owned()),
        Ok(done) => Err(format!("{command:?}: {}", String::from_utf8_lossy(&done.stderr).trim_end())),
        Err(error) => Err(format!("{command:?}: {error}")),
    }
}

/// The folder that `pkg-config` names, if it has the archive. `pkg-config` only knows libraries of this machine.
fn installed_folder() -> Option<PathBuf> {
    let (host, system, _) = (named("HOST"), target("OS"), name_of_target()?);
    if host.split('-').next() != named("TARGET").split('-').next() || !host.contains(&system) {
        return None;
    }
    let answer = Command::new("pkg-config").args(["--variable=libdir", "proved_argon2"]).output().ok()?;
    with_archive(PathBuf::from(String::from_utf8(answer.stdout).ok()?.trim_end_matches('\n')))
}

/// The folder, if it has an archive.
fn with_archive(folder: PathBuf) -> Option<PathBuf> {
    folder.join(ARCHIVE).is_file().then_some(folder)
}
