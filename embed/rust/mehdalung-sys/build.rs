//! Links libmehdalung.a: of the folder MEHDALUNG_LIB_DIR, of an installation that pkg-config knows, or
//! of embed/build in the repository.
use std::path::{Path, PathBuf};
use std::process::{exit, Command};
use std::{env, str};

const ARCHIVE: &str = "libmehdalung.a";

/// What to do if there is no library.
const ADVICE: &str = "\
mehdalung-sys links libmehdalung.a, the library for C. Do one of these:
  - set MEHDALUNG_LIB_DIR to its folder, an absolute path
  - install it: `make -C embed install` in the repository of Mehdalung, or the Debian package
    libmehdalung-dev; then pkg-config has to find mehdalung.pc
  - build it in the repository that this crate lies in, by `make -C embed`";

/// The folder of an installed library, by pkg-config.
fn installed() -> Option<PathBuf> {
    let asked =
        Command::new("pkg-config").args(["--variable=libdir", "mehdalung"]).output().ok()?;
    let folder = Path::new(str::from_utf8(&asked.stdout).ok()?.trim_end_matches('\n'));
    (asked.status.success() && folder.join(ARCHIVE).exists()).then(|| folder.to_path_buf())
}

/// The folder that `make -C embed` builds.
fn built() -> Option<PathBuf> {
    let folder = Path::new(&env::var_os("CARGO_MANIFEST_DIR")?).join("../../build");
    folder.join(ARCHIVE).exists().then_some(folder)
}

/// Ends the build with a reason.
fn refuse(reason: &str) -> ! {
    eprintln!("{reason}\n{ADVICE}");
    exit(1)
}

fn main() {
    for name in ["MEHDALUNG_LIB_DIR", "PKG_CONFIG_PATH", "PKG_CONFIG_LIBDIR"] {
        println!("cargo:rerun-if-env-changed={name}");
    }
    let folder = match env::var_os("MEHDALUNG_LIB_DIR").map(PathBuf::from) {
        Some(named) if named.is_absolute() && named.join(ARCHIVE).exists() => named,
        Some(named) => refuse(&format!("MEHDALUNG_LIB_DIR: no {ARCHIVE} by {}", named.display())),
        None => installed().or_else(built).unwrap_or_else(|| refuse("there is no libmehdalung.a")),
    };
    println!("cargo:rerun-if-changed={}", folder.join(ARCHIVE).display());
    println!("cargo:rustc-link-search=native={}", folder.display());
    println!("cargo:rustc-link-lib=static=mehdalung");
}
