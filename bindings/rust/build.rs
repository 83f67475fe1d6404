//! Compiles the calls that look, which are C of one file, by `$CC` or `cc`, and `$AR` or `ar`. With the feature
//! `whole` it links libpuffgrit.a of the folder that PUFFGRIT_PREFIX names instead (tools/build-c --prefix).
use std::env;
use std::path::{Path, PathBuf};
use std::process::Command;

fn main() {
    for name in ["PUFFGRIT_PREFIX", "CC", "AR", "CFLAGS"] {
        println!("cargo:rerun-if-env-changed={name}");
    }
    if env::var_os("CARGO_FEATURE_WHOLE").is_some() {
        if let Ok(prefix) = env::var("PUFFGRIT_PREFIX") {
            println!("cargo:rustc-link-search=native={prefix}/lib");
            println!("cargo:include={prefix}/include");
        }
        println!("cargo:rustc-link-lib=static=puffgrit");
        return;
    }
    // in the repository, and in a package
    let here = PathBuf::from(variable("CARGO_MANIFEST_DIR"));
    let c = if here.join("c").is_dir() { here.join("c") } else { here.join("../c") };
    compile(&c, &PathBuf::from(variable("OUT_DIR")));
    println!("cargo:include={}", c.display());
}

fn variable(name: &str) -> String {
    env::var(name).unwrap_or_else(|_| panic!("{name} isn't set"))
}

/// The words of a variable, or else of this text.
fn words(name: &str, otherwise: &str) -> Vec<String> {
    let text = env::var(name).unwrap_or_else(|_| otherwise.into());
    text.split_whitespace().map(String::from).collect()
}

fn compile(c: &Path, out: &Path) {
    let source = [c.join("puffgrit_look.c"), c.join("portable/puffgrit_look.c")].into_iter().find(|it| it.is_file()).expect("puffgrit_look.c");
    println!("cargo:rerun-if-changed={}", source.display());
    let (object, archive) = (out.join("puffgrit_look.o"), out.join("libpuffgrit_look.a"));
    let (compiler, flags) = (words("CC", "cc"), words("CFLAGS", ""));
    let mut command = Command::new(&compiler[0]);
    command.args(&compiler[1..]).args(["-std=c99", "-O2", "-fPIC", "-c", "-I"]).arg(c).args(flags).arg(source).arg("-o").arg(&object);
    run(&mut command);
    let _ = std::fs::remove_file(&archive);
    run(Command::new(&words("AR", "ar")[0]).arg("crs").arg(&archive).arg(&object));
    println!("cargo:rustc-link-search=native={}", out.display());
    println!("cargo:rustc-link-lib=static=puffgrit_look");
}

fn run(command: &mut Command) {
    let status = command.status().unwrap_or_else(|error| panic!("{command:?}: {error}"));
    assert!(status.success(), "{command:?} failed");
}
