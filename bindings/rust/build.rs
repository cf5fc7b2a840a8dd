//! Finds the library of a release, `libfilgordd.a`, and links it: that of the folder `FILGORDD_DIR`, where
//! a release was installed or unpacked; without it the one that `pkg-config` knows; without that the one
//! in the folder `native` beside this file. It has to be of the version of this crate.
use std::env;
use std::fmt::Display;
use std::fs;
use std::path::{Path, PathBuf};
use std::process::{Command, exit};

const VERSION: &str = env!("CARGO_PKG_VERSION");

// Ends the build with lines that say what is wrong, and what to do.
fn fail(why: impl Display) -> ! {
    for line in why.to_string().lines() {
        println!("cargo::error={line}");
    }
    exit(1)
}

/// The folder of a library, and its version.
struct Library {
    folder: PathBuf,
    version: String,
}

impl Library {
    // That of a folder which has lib/ as a release has it.
    fn installed(folder: &Path) -> Option<Library> {
        let folder = folder.join("lib");
        let about = fs::read_to_string(folder.join("pkgconfig/filgordd.pc")).ok()?;
        let version = about.lines().find_map(|it| it.strip_prefix("Version: "))?.trim().into();
        folder.join("libfilgordd.a").is_file().then_some(Library { folder, version })
    }

    // What `pkg-config` tells.
    fn known() -> Option<Library> {
        let told = |word: &str| {
            let ran = Command::new("pkg-config").args([word, "filgordd"]).output().ok()?;
            let text = String::from_utf8(ran.stdout).ok()?;
            ran.status.success().then(|| text.trim().to_string())
        };
        let library = Library { folder: told("--variable=libdir")?.into(), version: told("--modversion")? };
        library.folder.join("libfilgordd.a").is_file().then_some(library)
    }
}

fn library() -> Library {
    if let Some(folder) = env::var_os("FILGORDD_DIR") {
        let folder = PathBuf::from(folder);
        return Library::installed(&folder).unwrap_or_else(|| {
            fail(format!(
                "FILGORDD_DIR is {}, which has no lib/libfilgordd.a with lib/pkgconfig/filgordd.pc:\n\
                name the folder in which a release of Filgordd was installed or unpacked",
                folder.display()
            ))
        });
    }
    let here = PathBuf::from(env::var_os("CARGO_MANIFEST_DIR").expect("Cargo sets it"));
    Library::known().or_else(|| Library::installed(&here.join("native"))).unwrap_or_else(|| {
        fail(format!(
            "there is no libfilgordd.a of version {VERSION}: install a release of Filgordd by its install.sh,\n\
            and set FILGORDD_DIR to the folder that it was installed in, or PKG_CONFIG_PATH to lib/pkgconfig there"
        ))
    })
}

fn main() {
    println!("cargo::rerun-if-env-changed=FILGORDD_DIR");
    println!("cargo::rerun-if-env-changed=PKG_CONFIG_PATH");
    // The pages of docs.rs need no library.
    if env::var_os("DOCS_RS").is_some() {
        return;
    }
    let Library { folder, version } = library();
    if version != VERSION {
        fail(format!(
            "the library in {} is of version {version}, and this crate of version {VERSION}:\n\
            take both from one release",
            folder.display()
        ));
    }
    println!("cargo::rerun-if-changed={}", folder.join("libfilgordd.a").display());
    println!("cargo::rustc-link-search=native={}", folder.display());
    println!("cargo::rustc-link-lib=static=filgordd");
}
