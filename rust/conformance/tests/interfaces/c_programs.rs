//! Programs in C and C++ that include the header, link the static library and check table X.

use conformance::cases::{accepted, table_x};
use interpreter::JobRecord;
use std::env;
use std::path::{Path, PathBuf};
use std::process::{Command, Output};

/// The strictest warnings, as errors.
const WARNINGS: [&str; 4] = ["-Wall", "-Wextra", "-Wpedantic", "-Werror"];

/// A compiler, its language's version, and a program.
struct Program {
    compiler: &'static str,
    standard: &'static str,
    source: &'static str,
}

const C: Program = Program { compiler: "cc", standard: "-std=c11", source: "table_x.c" };
const CPP: Program = Program { compiler: "c++", standard: "-std=c++17", source: "table_x.cpp" };

/// The repository's root.
fn root() -> PathBuf {
    Path::new(env!("CARGO_MANIFEST_DIR")).join("../..")
}

/// The static library, found as the binding's build does.
fn library() -> PathBuf {
    let built = || root().join("crates/adqurim/out");
    env::var_os("ADQURIM_LIB_DIR").map_or_else(built, PathBuf::from).join("libadqurim.a")
}

/// What a command wrote, in case it fails.
fn written(output: &Output) -> String {
    [&output.stdout, &output.stderr].map(|bytes| String::from_utf8_lossy(bytes)).concat()
}

/// Compiles and links a program, then runs it. `name` is the name of what is built.
fn run(program: &Program, name: &str, more: &[&str]) -> Output {
    let built = Path::new(env!("CARGO_TARGET_TMPDIR")).join(name);
    let source =
        Path::new(env!("CARGO_MANIFEST_DIR")).join("tests/interfaces/c").join(program.source);
    let mut compiler = Command::new(program.compiler);
    compiler.arg(program.standard).args(WARNINGS).args(more);
    compiler.arg("-I").arg(root().join("include"));
    compiler.arg(source).arg(library()).arg("-o").arg(&built);
    let compiled = compiler.output().expect("the compiler starts");
    assert!(compiled.status.success(), "{compiler:?}\n{}", written(&compiled));
    Command::new(built).output().expect("the program starts")
}

/// What a program prints: table X's sheet, and a line for each of its jobs.
fn printed() -> String {
    let file = table_x().write();
    let mut text = interpreter::sheet(&file);
    for (number, job) in accepted(&file).jobs.iter().enumerate() {
        let JobRecord { task, arrival, latest_finish } = job;
        text += &format!("job {number} task {} arrival {arrival} latest {latest_finish}\n", task.0);
    }
    text
}

/// Runs a program as it is, then with a count that is not document 01's, which it must notice.
fn check(program: &Program, name: &str) {
    let output = run(program, name, &[]);
    assert_eq!(output.status.code(), Some(0), "{}", written(&output));
    assert_eq!(written(&output), printed());
    let output = run(program, &format!("{name}_wrong"), &["-DCOUNT_OF_X=24"]);
    assert_eq!(output.status.code(), Some(1), "{}", written(&output));
    assert!(!output.stderr.is_empty(), "it says what differs");
}

#[test]
fn table_x_in_c() {
    check(&C, "table_x_c");
}

#[test]
fn table_x_in_cpp() {
    check(&CPP, "table_x_cpp");
}
