//! Compiles what the engine is compared with: the versions in C with gcc and, where installed, with
//! clang; the comparators in double where LAPACK or Eigen is installed; and an earlier archive of
//! the engine where `HUBQR_EARLIER` names one. What is there becomes a `cfg` of that name.
use std::env;
use std::ffi::OsStr;
use std::path::{Path, PathBuf};
use std::process::Command;

/// A version in C: its name, the turn that it makes or where its header is and how it rounds, the
/// processor that it is compiled for, and its sources.
struct Version {
    name: &'static str,
    options: &'static [&'static str],
    processor: &'static str,
    sources: &'static [&'static str],
}

/// The processor that every x86-64 is, as the engine is compiled.
const BASELINE: &str = "x86-64";

const NARROW: Version = Version {
    name: "narrow",
    options: &["-DROTATE=rotate_narrow"],
    processor: BASELINE,
    sources: &["narrow.c", "wide.c", "calls.c"],
};

const VERSIONS: [Version; 9] = [
    Version {
        name: "plain",
        options: &["-DROTATE=rotate_plain"],
        processor: BASELINE,
        sources: &["plain.c", "calls.c"],
    },
    Version {
        name: "wide",
        options: &["-DROTATE=rotate_wide"],
        processor: BASELINE,
        sources: &["wide.c", "calls.c"],
    },
    NARROW,
    Version {
        name: "narrow_v3",
        processor: "x86-64-v3",
        ..NARROW
    },
    Version {
        name: "covariance",
        options: &["-I../include"],
        processor: BASELINE,
        sources: &["covariance.c"],
    },
    Version {
        name: "weights",
        options: &["-I../include", "-ffp-contract=off"],
        processor: BASELINE,
        sources: &["weights.c"],
    },
    Version {
        name: "verify",
        options: &["-I../include"],
        processor: BASELINE,
        sources: &["verify.c"],
    },
    Version {
        name: "desk",
        options: &["-I../include"],
        processor: BASELINE,
        sources: &["desk.c"],
    },
    Version {
        name: "log",
        options: &["-I../include"],
        processor: BASELINE,
        sources: &["log.c"],
    },
];

fn main() {
    watch();
    let folder = env::var_os("OUT_DIR").expect("cargo sets OUT_DIR");
    let folder = Path::new(&folder);
    println!("cargo:rustc-link-search=native={}", folder.display());
    if !versions(folder, "gcc") {
        panic!("the benchmark needs gcc for the version that all others are compared with");
    }
    announce("clang", versions(folder, "clang"));
    announce("lapack", lapack(folder));
    announce("eigen", eigen(folder));
    announce("earlier", earlier(folder));
}

/// What the outcome depends on.
fn watch() {
    for variable in ["HUBQR_EARLIER", "CPLUS_INCLUDE_PATH", "LIBRARY_PATH"] {
        println!("cargo:rerun-if-env-changed={variable}");
    }
    let sources = VERSIONS.iter().flat_map(|version| version.sources.iter());
    let others = [
        "name.h",
        "version.h",
        "records.h",
        "covariance.h",
        "weights.h",
        "verify.h",
        "desk.h",
        "log.h",
        "../include/hubqr.h",
        "../include/hubqr_base.h",
        "../include/hubqr_covariance.h",
        "../include/hubqr_desk.h",
        "../include/hubqr_log.h",
        "../include/hubqr_verify.h",
        "../include/hubqr_weights.h",
        "double.h",
        "lapack.c",
        "lapack_complex.c",
        "eigen.cpp",
    ];
    for file in sources.chain(&others) {
        println!("cargo:rerun-if-changed={file}");
    }
}

fn announce(name: &str, is_there: bool) {
    println!("cargo:rustc-check-cfg=cfg({name})");
    if is_there {
        println!("cargo:rustc-cfg={name}");
    }
}

/// The versions in C by one compiler, if it is installed.
fn versions(folder: &Path, compiler: &str) -> bool {
    if run(Command::new(compiler).arg("--version")).is_err() {
        return false;
    }
    for version in VERSIONS {
        let name = format!("{compiler}_{}", version.name);
        let prefix = format!("-DVERSION={name}");
        let processor = format!("-march={}", version.processor);
        let flags = [&["-std=c11", &processor, &prefix], version.options].concat();
        let objects = version.sources.iter().map(|source| {
            let object = folder.join(format!("{name}_{source}.o"));
            compile(compiler, &flags, source, &object);
            object
        });
        archive(folder, &name, &objects.collect::<Vec<_>>());
    }
    true
}

/// The comparators that call LAPACK, if it can be linked.
fn lapack(folder: &Path) -> bool {
    let objects = ["lapack", "lapack_complex"].map(|name| {
        let object = folder.join(format!("{name}.o"));
        let flags = ["-std=c11", "-fPIC"];
        compile("gcc", &flags, &format!("{name}.c"), &object);
        object
    });
    let mut link = Command::new("gcc");
    link.args(["-shared", "-Wl,-z,defs", "-o"])
        .arg(folder.join("lapack.so"))
        .args(&objects)
        .args(["-llapack", "-lblas"]);
    if run(&mut link).is_err() {
        return false;
    }
    archive(folder, "comparator_lapack", &objects);
    println!("cargo:rustc-link-lib=lapack");
    println!("cargo:rustc-link-lib=blas");
    true
}

/// The comparator that uses Eigen, if g++ finds its headers.
fn eigen(folder: &Path) -> bool {
    let headers = ["-isystem", "/usr/include/eigen3"];
    let mut find = Command::new("g++");
    find.args(headers).args(["-E", "-include", "Eigen/Dense"]);
    if run(find.args(["-x", "c++", "/dev/null", "-o", "/dev/null"])).is_err() {
        return false;
    }
    let object = folder.join("eigen.o");
    let flags = [headers[0], headers[1], "-DNDEBUG"];
    compile("g++", &flags, "eigen.cpp", &object);
    archive(folder, "comparator_eigen", &[object]);
    println!("cargo:rustc-link-lib=stdc++");
    true
}

/// An earlier archive of the engine with other names for its calls, if one is named. It has to
/// answer by value, as this one does; an archive that tells no version answers through pointers, and
/// to call it in this way would do anything.
fn earlier(folder: &Path) -> bool {
    let named = env::var_os("HUBQR_EARLIER").filter(|path| !path.is_empty());
    let Some(path) = named else {
        return false;
    };
    // Cargo runs this program in the crate's folder, so a path from elsewhere cannot be followed.
    if !Path::new(&path).is_absolute() {
        panic!("HUBQR_EARLIER is {path:?}, which is no absolute path: name it from the root");
    }
    println!("cargo:rerun-if-changed={}", Path::new(&path).display());
    let names = exports(&path);
    if !names.iter().any(|name| name == "hubqr_version") {
        panic!("{path:?} has no hubqr_version, so its calls are not those of this benchmark");
    }
    let mut rename = Command::new("objcopy");
    for name in names {
        rename.arg(format!("--redefine-sym={name}=earlier_{name}"));
    }
    needed(rename.arg(path).arg(folder.join("libearlier.a")));
    println!("cargo:rustc-link-lib=static=earlier");
    true
}

/// What an archive of the engine exports: the third column of each line that nm prints.
fn exports(archive: &OsStr) -> Vec<String> {
    let listed = needed(
        Command::new("nm")
            .args(["-g", "--defined-only"])
            .arg(archive),
    );
    let names = listed.lines().filter_map(|l| l.split_whitespace().nth(2));
    let exports = names.filter(|name| name.starts_with("hubqr_"));
    exports.map(String::from).collect()
}

fn compile(compiler: &str, flags: &[&str], source: &str, object: &Path) {
    let mut command = Command::new(compiler);
    command.args(["-O3", "-Wall", "-Wextra"]).args(flags);
    let messages = needed(command.args(["-c", source, "-o"]).arg(object));
    for line in messages.lines() {
        println!("cargo:warning={line}");
    }
}

fn archive(folder: &Path, name: &str, objects: &[PathBuf]) {
    let file = folder.join(format!("lib{name}.a"));
    needed(Command::new("ar").arg("crs").arg(file).args(objects));
    println!("cargo:rustc-link-lib=static={name}");
}

/// Runs a command that has to succeed and answers what it printed.
fn needed(command: &mut Command) -> String {
    run(command).unwrap_or_else(|error| panic!("{error}"))
}

/// Runs a command and answers what it printed, or why it failed.
fn run(command: &mut Command) -> Result<String, String> {
    let output = command
        .output()
        .map_err(|error| format!("{command:?}: {error}"))?;
    let printed = [output.stdout, output.stderr].concat();
    let printed = String::from_utf8_lossy(&printed).into_owned();
    if output.status.success() {
        Ok(printed)
    } else {
        Err(format!("{command:?}: {printed}"))
    }
}
