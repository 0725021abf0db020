//! C files of these tests and of the examples, compiled against the header and run.

use std::env;
use std::path::{Path, PathBuf};
use std::process::{Command, Output};

/// The top of the repository.
pub fn top() -> PathBuf {
    Path::new(env!("CARGO_MANIFEST_DIR")).join("../..")
}

/// The compiler that CC names, else `cc`.
pub fn compiler() -> Command {
    Command::new(env::var("CC").unwrap_or_else(|_| String::from("cc")))
}

/// Compiles a C file, linked with the library, to a program of its name.
pub fn compile(source: &Path) -> PathBuf {
    let name = source.file_stem().expect("a C file has a name");
    let program = Path::new(env!("CARGO_TARGET_TMPDIR")).join(name);
    let output = compiler()
        .args(["-std=c11", "-Wall", "-Wextra", "-Werror", "-pedantic", "-I"])
        .arg(top().join("include"))
        .arg(source)
        .arg(globe_sys::ARCHIVE)
        .args(["-lm", "-o"])
        .arg(&program)
        .output()
        .expect("the C compiler is started");
    let errors = String::from_utf8_lossy(&output.stderr);
    assert!(output.status.success(), "{}: {errors}", source.display());
    program
}

/// Runs a program at the top of the repository.
pub fn run(program: &Path, arguments: &[&str]) -> Output {
    Command::new(program)
        .args(arguments)
        .current_dir(top())
        .output()
        .expect("the program is started")
}

/// What a program writes on standard output.
pub fn written(output: &Output) -> String {
    String::from_utf8_lossy(&output.stdout).into_owned()
}
