//! Links the static library of the decoder, and what the bench has in C.
//!
//! The library is taken from `target/staticlib` of the repository, or from the file that `PUGDREL_LIB` names. What is in C is compiled
//! with `cc`, or with the compiler that `CC` names.

use std::path::{Path, PathBuf};
use std::process::Command;
use std::{env, process};

/// The library that is linked. The name of its file follows from this: the bench has it nowhere else.
const LIBRARY: &str = "pugdrel";

const VARIABLE: &str = "PUGDREL_LIB";

/// The sources in C, of the folder `c`, without their ending.
const C_SOURCES: [&str; 2] = ["blocks", "load"];

/// The variable that names another compiler for them than `cc`.
const COMPILER: &str = "CC";

fn main() {
    link_library();
    link_c();
}

fn link_library() {
    println!("cargo:rerun-if-env-changed={VARIABLE}");
    let library = library_path();
    println!("cargo:rerun-if-changed={}", library.display());
    if !library.is_file() {
        stop(&format!("there is no {}", library.display()));
    }
    let (Some(directory), Some(name)) = (library.parent(), link_name(&library)) else {
        stop(&format!(
            "{} is not named like libNAME.a",
            library.display()
        ));
    };
    println!("cargo:rustc-link-search=native={}", directory.display());
    println!("cargo:rustc-link-lib=static={name}");
}

/// Compiles what is in C as an optimised program is, and makes a library of it.
fn link_c() {
    println!("cargo:rerun-if-env-changed={COMPILER}");
    let named = env::var(COMPILER).unwrap_or_default();
    let compiler = if named.is_empty() { "cc" } else { &named };
    let made_in = PathBuf::from(env::var_os("OUT_DIR").unwrap_or_default());
    let objects = C_SOURCES.map(|source| compiled(compiler, source, &made_in));
    let mut library = vec![made_in.join("libin_c.a")];
    library.extend(objects);
    run("ar crs", &library);
    println!("cargo:rustc-link-search=native={}", made_in.display());
    println!("cargo:rustc-link-lib=static=in_c");
    // What is timed beside the library depends on who compiled it, so that the bench says it.
    let version = run(&format!("{compiler} --version"), &[]);
    let first = version.lines().next().unwrap_or(compiler);
    println!("cargo:rustc-env=C_COMPILER={first}, -O2");
}

/// The object file of one source.
fn compiled(compiler: &str, source: &str, made_in: &Path) -> PathBuf {
    let (file, object) = (
        format!("c/{source}.c"),
        made_in.join(source).with_extension("o"),
    );
    println!("cargo:rerun-if-changed={file}");
    let warnings = "-Wall -Wextra -Wpedantic";
    let compile = format!("{compiler} -std=c99 -O2 -fPIC {warnings} -c {file} -o");
    run(&compile, std::slice::from_ref(&object));
    object
}

/// Runs a command of these words and paths, and gives what it prints.
fn run(words: &str, paths: &[PathBuf]) -> String {
    let mut words = words.split_whitespace();
    let program = words.next().unwrap_or_default();
    let ended = Command::new(program).args(words).args(paths).output();
    let why = match ended {
        Ok(output) if output.status.success() => {
            return String::from_utf8_lossy(&output.stdout).into_owned();
        }
        Ok(output) => {
            let said = String::from_utf8_lossy(&output.stderr);
            format!(
                "{program} ended with {} and said\n{}",
                output.status,
                said.trim_end()
            )
        }
        Err(why) => format!("{program} does not run ({why})"),
    };
    eprintln!("What the bench has in C could not be compiled: {why}.");
    eprintln!("It needs a C compiler, cc or the one that {COMPILER} names, and ar.");
    process::exit(1);
}

fn library_path() -> PathBuf {
    let root = Path::new(&env::var("CARGO_MANIFEST_DIR").unwrap_or_default()).join("..");
    match env::var_os(VARIABLE) {
        // A relative path is one from where the command was given, not from where this script runs: only the
        // caller can make it absolute.
        Some(path) if Path::new(&path).is_absolute() => PathBuf::from(path),
        Some(path) => stop(&format!(
            "{VARIABLE} must be an absolute path, and is {}",
            path.display()
        )),
        None => root.join(written()),
    }
}

/// The file that `tools/build staticlib` writes, from the root of the repository.
fn written() -> String {
    format!("target/staticlib/lib{LIBRARY}.a")
}

/// `some` of `/some/where/libsome.a`.
fn link_name(library: &Path) -> Option<&str> {
    library
        .file_name()?
        .to_str()?
        .strip_prefix("lib")?
        .strip_suffix(".a")
}

fn stop(why: &str) -> ! {
    eprintln!("The static library of the decoder is missing: {why}.");
    eprintln!("Make it with 'tools/build staticlib' in the root of the repository, which writes");
    eprintln!(
        "{}, or name another one: {VARIABLE}=/path/to/libNAME.a",
        written()
    );
    process::exit(1);
}
