//! The build script: which library it links, when it runs again, and the sentence with which it ends
//! if there is none.

use std::path::{Path, PathBuf};
use std::process::{Command, Output};
use std::sync::Once;
use std::{env, fs};

/// What changes the result of the script.
const VARIABLES: [&str; 6] = [
    "BPFCANON_LIB_DIR",
    "BPFCANON_STATIC",
    "PKG_CONFIG",
    "PKG_CONFIG_PATH",
    "PKG_CONFIG_LIBDIR",
    "DOCS_RS",
];

/// Builds the crate where `variable` names a folder without the library.
fn build_without_library(variable: &str) -> Output {
    let folder = concat!(env!("CARGO_TARGET_TMPDIR"), "/empty");
    fs::create_dir_all(folder).unwrap();
    let mut cargo = Command::new(env!("CARGO"));
    cargo.args(["build", "--quiet", "--offline", "--manifest-path"]);
    cargo.arg(concat!(env!("CARGO_MANIFEST_DIR"), "/Cargo.toml"));
    cargo.args(["--target-dir", concat!(env!("CARGO_TARGET_TMPDIR"), "/without")]);
    cargo.env_remove("BPFCANON_LIB_DIR").env("PKG_CONFIG_PATH", folder);
    cargo.env("PKG_CONFIG_LIBDIR", folder).env(variable, folder).output().unwrap()
}

#[test]
fn without_the_library_a_sentence_says_what_to_install() {
    for variable in ["PKG_CONFIG_PATH", "BPFCANON_LIB_DIR"] {
        let done = build_without_library(variable);
        let said = String::from_utf8_lossy(&done.stderr);
        assert!(!done.status.success(), "{variable}");
        let sentences = said.lines().filter(|it| it.contains("bpfcanon needs its C library ("));
        let ends: Vec<_> = sentences.filter_map(|it| it.split_once("): ")).collect();
        assert_eq!(ends.len(), 1, "{variable}: {said}");
        assert!(ends[0].1.starts_with("install libbpfcanon-dev, or set PKG_CONFIG_PATH"), "{said}");
    }
}

/// The script, compiled by itself: Cargo would compile the crate in each run, too.
fn script() -> PathBuf {
    static SCRIPT: Once = Once::new();
    let made = Path::new(env!("CARGO_TARGET_TMPDIR")).join("build_script");
    SCRIPT.call_once(|| {
        let mut compiler = Command::new(Path::new(env!("CARGO")).with_file_name("rustc"));
        compiler.args(["--edition=2021", concat!(env!("CARGO_MANIFEST_DIR"), "/build.rs"), "-o"]);
        assert!(compiler.arg(&made).status().unwrap().success());
    });
    made
}

/// What the script prints with these variables, and none of the others; or the reason in brackets
/// of its sentence.
fn run(variables: &[(&str, &str)]) -> Result<Vec<String>, String> {
    let mut script = Command::new(script());
    for name in VARIABLES {
        script.env_remove(name);
    }
    let done = script.envs(variables.iter().copied()).output().unwrap();
    let said = String::from_utf8(done.stderr).unwrap();
    let reason = said.strip_prefix("bpfcanon needs its C library (");
    match done.status.success() {
        true => Ok(String::from_utf8(done.stdout).unwrap().lines().map(String::from).collect()),
        false => Err(reason.unwrap().split_once("): ").unwrap().0.into()),
    }
}

/// A folder with these files, which are empty.
fn folder(name: &str, files: &[&str]) -> String {
    let folder = Path::new(env!("CARGO_TARGET_TMPDIR")).join(name);
    fs::create_dir_all(&folder).unwrap();
    files.iter().for_each(|it| fs::write(folder.join(it), "").unwrap());
    folder.into_os_string().into_string().unwrap()
}

/// The lines with which Cargo links a library of this kind from a folder.
fn links(kind: &str, folder: &str) -> [String; 2] {
    let search = format!("cargo:rustc-link-search=native={folder}");
    [search, format!("cargo:rustc-link-lib={kind}=bpfcanon")]
}

/// The files of a folder, the value of `BPFCANON_STATIC`, and the kind of library that is linked.
const KINDS: [(&str, &[&str], Option<&str>, &str); 7] = [
    ("both", &["libbpfcanon.a", "libbpfcanon.so"], None, "dylib"),
    ("both", &["libbpfcanon.a", "libbpfcanon.so"], Some("1"), "static"),
    ("both", &["libbpfcanon.a", "libbpfcanon.so"], Some("0"), "dylib"),
    ("both", &["libbpfcanon.a", "libbpfcanon.so"], Some(""), "dylib"),
    ("archive", &["libbpfcanon.a"], None, "static"),
    ("archive", &["libbpfcanon.a"], Some("0"), "static"),
    ("shared", &["libbpfcanon.so"], None, "dylib"),
];

#[test]
fn the_kind_of_library_is_chosen() {
    for (name, files, is_static, kind) in KINDS {
        let folder = folder(name, files);
        let asked = is_static.map(|it| ("BPFCANON_STATIC", it));
        let found = [("BPFCANON_LIB_DIR", &*folder)].into_iter().chain(asked).collect::<Vec<_>>();
        let printed = run(&found).unwrap();
        let (links, others) = (links(kind, &folder), &printed[..printed.len() - 2]);
        assert_eq!(printed[printed.len() - 2..], links, "{name} {is_static:?}");
        assert!(others.iter().all(|it| it.starts_with("cargo:rerun-if-")), "{others:?}");
    }
    let other = folder("other", &["libbpfcanon.so.0"]);
    assert_eq!(run(&[("BPFCANON_LIB_DIR", &other)]), Err(format!("there is none in {other}")));
}

/// Without these lines Cargo runs the script again for a change of any file of the crate, and with
/// some of them only for those that they name.
#[test]
fn the_script_runs_again_for_each_variable() {
    let mut printed = run(&[("DOCS_RS", "1")]).unwrap();
    printed.sort();
    let variables = VARIABLES[..5].iter().map(|it| format!("cargo:rerun-if-env-changed={it}"));
    let mut right: Vec<_> = variables.collect();
    right.push("cargo:rerun-if-changed=build.rs".into());
    right.sort();
    assert_eq!(printed, right);
}

/// Versions of the library that pkg-config finds, and whether they are taken.
const VERSIONS: [(&str, bool); 8] = [
    ("0.0.9", false),
    ("0.0.999", false),
    ("0.1.0", true),
    ("0.1.12", true),
    ("0.2.0", true),
    ("0.10.0", true),
    ("1.0.0", false),
    ("1.1.0", false),
];

#[test]
fn a_library_of_another_version_is_refused() {
    for (version, is_taken) in VERSIONS {
        let folder = folder(version, &["libbpfcanon.so"]);
        let lines = format!("libdir={folder}\nName: bpfcanon\nDescription: a library\n");
        fs::write(format!("{folder}/bpfcanon.pc"), format!("{lines}Version: {version}\n")).unwrap();
        match run(&[("PKG_CONFIG_LIBDIR", &folder)]) {
            Ok(printed) => {
                assert!(is_taken, "{version}");
                assert_eq!(printed[printed.len() - 2..], links("dylib", &folder), "{version}");
            }
            Err(reason) => assert!(!is_taken && reason.starts_with("pkg-config: "), "{reason}"),
        }
    }
}
