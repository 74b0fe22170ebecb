//! Says where `libpix_c.a` is, or `pix_c.lib` for MSVC: in the folder `PIX_LIB_DIR`, or in this package as a release packs
//! it. In a clone it is assembled of the repository's `generated`, by the C compiler that the crate `cc` would take,
//! without that crate, so that a build needs no network. For MSVC that is clang, with `llvm-ar` or `llvm-lib`.

use std::env;
use std::path::{Path, PathBuf};
use std::process::Command;

/// The folder of the archive, or why there is none for this target.
fn folder(here: &Path, target: &str) -> Result<PathBuf, String> {
    if let Some(named) = env::var_os("PIX_LIB_DIR") {
        let folder = PathBuf::from(named);
        if folder.is_absolute() {
            return Ok(folder);
        }
        let shown = folder.display();
        return Err(format!(
            "PIX_LIB_DIR is {shown}: give it as a whole path, from / on"
        ));
    }
    let packed = here.join("lib");
    if packed.join(target).is_dir() {
        return Ok(packed.join(target));
    }
    if packed.is_dir() {
        return Err(format!(
            "there is no proved archive for {target} here: set PIX_LIB_DIR to the folder of one"
        ));
    }
    assembled(&here.join("../../../generated"), target)
}

/// How the code for a target is assembled: the file of `generated`, the compiler and the archiver that are taken where
/// the environment names none, and the words that the compiler needs beside them.
struct Recipe {
    file: &'static str,
    compiler: &'static str,
    archiver: &'static str,
    words: &'static [&'static str],
}

/// The recipe for a target, if there is proved code for it.
fn recipe(target: &str) -> Option<Recipe> {
    let of = |file, compiler, archiver, words| Recipe {
        file,
        compiler,
        archiver,
        words,
    };
    Some(match target {
        "x86_64-unknown-linux-gnu" | "x86_64-unknown-linux-musl" => of(
            "pix-x86_64.s",
            "x86_64-linux-gnu-gcc",
            "x86_64-linux-gnu-ar",
            &[],
        ),
        "aarch64-unknown-linux-gnu" | "aarch64-unknown-linux-musl" => of(
            "pix-aarch64.s",
            "aarch64-linux-gnu-gcc",
            "aarch64-linux-gnu-ar",
            &[],
        ),
        "x86_64-pc-windows-gnu" | "x86_64-pc-windows-gnullvm" => of(
            "pix-x86_64-windows.s",
            "x86_64-w64-mingw32-gcc",
            "x86_64-w64-mingw32-ar",
            &[],
        ),
        "x86_64-pc-windows-msvc" => of("pix-x86_64-windows.s", "clang", "llvm-ar", &[MSVC]),
        "aarch64-apple-darwin" => of(
            "pix-arm64-macos.s",
            "clang",
            "ar",
            &["--target=arm64-apple-macos11"],
        ),
        _ => return None,
    })
}

/// The code for Windows is the same for both of its C libraries, but for the name of the function that asks for stack.
const MSVC: &str = "--target=x86_64-pc-windows-msvc";
const STACK_OF_GNU: &str = "___chkstk_ms";
const STACK_OF_MSVC: &str = "__chkstk";

/// The folder of the archive that is assembled here, or why it can't be.
fn assembled(generated: &Path, target: &str) -> Result<PathBuf, String> {
    let Some(recipe) = recipe(target) else {
        return Err(format!(
            "there is no proved code for {target}: pix is for x86-64 and aarch64 under Linux, x86-64 under Windows \
             and arm64 under macOS"
        ));
    };
    let mut file = generated.join(recipe.file);
    if !file.is_file() {
        return Err(format!(
            "no {}: take a commit or a tag that has it, or set PIX_LIB_DIR",
            file.display()
        ));
    }
    println!("cargo::rerun-if-changed={}", file.display());
    let out = PathBuf::from(env::var_os("OUT_DIR").unwrap_or_default());
    let is_msvc = recipe.words == [MSVC];
    if is_msvc {
        file = for_msvc(&file, &out)?;
    }
    let name = if is_msvc { "pix_c.lib" } else { "libpix_c.a" };
    let (object, archive) = (out.join("pix.o"), out.join(name));
    let _ = std::fs::remove_file(&archive);
    let native = env::var("HOST").is_ok_and(|host| host == target) && !is_msvc;
    let of = |tool: &'static str, own: &'static str| if native { tool } else { own };
    let compiler = tool("CC", target).unwrap_or_else(|| of("cc", recipe.compiler).into());
    let archiver = tool("AR", target).unwrap_or_else(|| of("ar", recipe.archiver).into());
    let mut words: Vec<&Path> = recipe.words.iter().map(Path::new).collect();
    words.extend(["-c".as_ref(), file.as_path(), "-o".as_ref(), &object]);
    run(&compiler, &words)?;
    let how = if recipe.file.ends_with("macos.s") {
        "rcs"
    } else {
        "rcsD"
    };
    run(&archiver, &[how.as_ref(), &archive, &object])?;
    Ok(out)
}

/// The file of assembly with MSVC's name of the function that asks for stack.
fn for_msvc(file: &Path, out: &Path) -> Result<PathBuf, String> {
    let fault = |why: std::io::Error| format!("{}: {why}", file.display());
    let text = std::fs::read_to_string(file).map_err(fault)?;
    let made = out.join("pix-msvc.s");
    std::fs::write(&made, text.replace(STACK_OF_GNU, STACK_OF_MSVC)).map_err(fault)?;
    Ok(made)
}

/// The tool that the environment names, for this target or for all.
fn tool(name: &str, target: &str) -> Option<String> {
    let names = [
        format!("{name}_{target}"),
        format!("{name}_{}", target.replace('-', "_")),
        format!("TARGET_{name}"),
        name.into(),
    ];
    names.into_iter().find_map(|it| {
        println!("cargo::rerun-if-env-changed={it}");
        env::var(it).ok().filter(|said| !said.trim().is_empty())
    })
}

/// Runs a tool, which may have words of its own, or says why it can't.
fn run(tool: &str, words: &[&Path]) -> Result<(), String> {
    let mut named = tool.split_whitespace();
    let program = named.next().unwrap_or_default();
    let done = Command::new(program).args(named).args(words).output();
    match done {
        Ok(done) if done.status.success() => Ok(()),
        Ok(done) => {
            let said = String::from_utf8_lossy(&done.stderr);
            let why = said.lines().next().unwrap_or("it says nothing");
            Err(format!("{tool} can't build the proved code: {why}"))
        }
        Err(why) => Err(format!(
            "{tool} builds the proved code, and doesn't start ({why}): install gcc and binutils, or set CC and AR"
        )),
    }
}

fn main() {
    println!("cargo::rerun-if-env-changed=PIX_LIB_DIR");
    let here = PathBuf::from(env::var_os("CARGO_MANIFEST_DIR").unwrap_or_default());
    let folder = match folder(&here, &env::var("TARGET").unwrap_or_default()) {
        Ok(folder) => folder,
        Err(fault) => {
            println!("cargo::error={fault}");
            return;
        }
    };
    let is_msvc = env::var("CARGO_CFG_TARGET_ENV").is_ok_and(|it| it == "msvc");
    let archive = folder.join(if is_msvc { "pix_c.lib" } else { "libpix_c.a" });
    if !archive.is_file() {
        println!(
            "cargo::error=no {}: build it, or set PIX_LIB_DIR",
            archive.display()
        );
    }
    if !folder.starts_with(env::var_os("OUT_DIR").unwrap_or_default()) {
        println!("cargo::rerun-if-changed={}", archive.display());
    }
    println!("cargo::rustc-link-search=native={}", folder.display());
}
