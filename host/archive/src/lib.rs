//! For build scripts: links a proved archive. It is proved and built once for each
//! state of its sources, and kept for all builds; or a prebuilt one is named.
//!
//! | Module | Subject |
//! |---|---|
//! | `target` | which targets an archive is for |
//! | `prebuilt` | an archive that a variable names |
//! | `repository` | the crates that an archive is made from |
//! | `kit` | `rt`, which proves and builds |
//! | `key`, `sha256` | one name for one state of the sources |
//! | `kept` | the archives that were built, and who builds next |
//! | `proving` | `rt` at work, its log and how far it is |
//! | `teller` | lines that are seen while a build runs |

#![forbid(unsafe_code)]
#![warn(missing_docs)]

mod kept;
mod key;
mod kit;
mod prebuilt;
mod proving;
mod repository;
mod sha256;
mod target;
mod teller;
#[cfg(test)]
mod trial;

use kept::Kept;
use kit::Kit;
use proving::Proving;
use repository::Repository;
use std::env;
use std::fmt;
use std::fs;
use std::path::{Path, PathBuf};
use std::process::exit;
use target::Target;
use teller::Teller;

/// Why there is no archive to link.
#[derive(Debug, Clone, PartialEq, Eq)]
pub enum Trouble {
    /// None is named, and what would make one is not there. The words are one line.
    Missing(String),
    /// The target is another, what is named is no archive, or it could not be made.
    Failed(String),
}

impl fmt::Display for Trouble {
    fn fmt(&self, to: &mut fmt::Formatter<'_>) -> fmt::Result {
        match self {
            Trouble::Missing(words) | Trouble::Failed(words) => to.write_str(words),
        }
    }
}

/// Links the archive of a crate whose functions are exported, or ends the build.
pub fn link(library: &str) {
    if let Err(trouble) = try_link(library) {
        stop(&trouble);
    }
}

/// Ends the build with the words of a trouble.
pub fn stop(trouble: &Trouble) -> ! {
    eprintln!("{}: {trouble}", variable("CARGO_PKG_NAME"));
    exit(1);
}

/// Links the archive of a crate whose functions are exported, and says which file
/// is linked: the one that is named, where one may be; one that was kept; or a new
/// one, which is proved and built for all builds to come.
///
/// # Errors
///
/// If there is none. Nothing is proved for a target that no archive is for.
pub fn try_link(library: &str) -> Result<PathBuf, Trouble> {
    println!("cargo:rerun-if-changed=build.rs");
    Target::of_build().check().map_err(Trouble::Failed)?;
    let archive = match prebuilt::named(library) {
        Some(file) => prebuilt::checked(&file).map_err(Trouble::Failed)?,
        None => made(library).inspect_err(ask_again)?,
    };
    hand_over(&archive, library).map_err(Trouble::Failed)
}

/// What is missing may be there at the next build: a script whose file is not there
/// is run again by every build.
fn ask_again(trouble: &Trouble) {
    if matches!(trouble, Trouble::Missing(_)) {
        let nothing = out().join("never-made");
        println!("cargo:rerun-if-changed={}", nothing.display());
    }
}

/// The archive of the repository's sources as they stand.
fn made(library: &str) -> Result<PathBuf, Trouble> {
    let package = PathBuf::from(variable("CARGO_MANIFEST_DIR"));
    let missing = |what: &str| Trouble::Missing(prebuilt::ways_out(library, what));
    let Some(repository) = Repository::above(&package) else {
        let what = "no folder above this package has a crates.txt, so its sources are not there";
        return Err(missing(what));
    };
    for source in repository.sources(library).map_err(Trouble::Failed)? {
        println!("cargo:rerun-if-changed={}", source.display());
    }
    let Some(kit) = Kit::on_path().map_err(Trouble::Failed)? else {
        return Err(missing("`rt` is not on PATH"));
    };
    let teller = Teller::of_build(&variable("CARGO_PKG_NAME"));
    let (kept, proving) = (Kept::of_host(), Proving::new(&repository, &kit, library));
    kept.find_or_make(&proving, &teller)
        .map_err(Trouble::Failed)
}

/// Links a copy: the archive may be removed or replaced before a later link.
fn hand_over(archive: &Path, library: &str) -> Result<PathBuf, String> {
    let (out, name) = (out(), format!("lib{library}.a"));
    let copy = out.join(name);
    fs::copy(archive, &copy)
        .map_err(|error| format!("{} could not be copied: {error}", archive.display()))?;
    println!("cargo:rustc-link-search=native={}", out.display());
    println!("cargo:rustc-link-lib=static={library}");
    Ok(copy)
}

fn out() -> PathBuf {
    PathBuf::from(variable("OUT_DIR"))
}

fn variable(name: &str) -> String {
    env::var(name).unwrap_or_else(|_| panic!("cargo sets {name} for build scripts"))
}
