//! The crates that an archive is made from.

use std::collections::BTreeMap;
use std::fs;
use std::path::{Path, PathBuf};

/// The list of crates at the root: a line `NAME: DEP DEP ..` for each, and
/// `NAME staticlib: DEP DEP ..` for one that exports its functions.
const LIST: &str = "crates.txt";

/// The folders of a crate that its proof and its code come from.
const PARTS: [&str; 3] = ["src", "specs", "proofs"];

/// The folder with the list of crates.
#[derive(Debug, Clone)]
pub struct Repository {
    root: PathBuf,
}

impl Repository {
    /// The nearest one that a package stands in.
    pub fn above(package: &Path) -> Option<Repository> {
        let mut folders = package.ancestors();
        let root = folders.find(|folder| folder.join(LIST).is_file())?;
        Some(Repository {
            root: root.to_path_buf(),
        })
    }

    pub fn root(&self) -> &Path {
        &self.root
    }

    pub fn list(&self) -> PathBuf {
        self.root.join(LIST)
    }

    /// The crate that exports the functions of a library: the library's own, or one
    /// with `_c` behind its name, where crates above it use the library's.
    pub fn exporter(&self, library: &str) -> Result<String, String> {
        let text = self.read()?;
        let lines = lines(&text);
        let names = [library.to_string(), format!("{library}_c")];
        let exports = |name: &String| lines.get(name.as_str()).is_some_and(|line| line.exports);
        names.into_iter().find(exports).ok_or_else(|| {
            let list = self.list();
            format!("{} lists no crate that exports {library}", list.display())
        })
    }

    /// The crate that exports a library and all that it depends on, by name. The
    /// kit's libraries have no folder here, and are the kit's to tell apart.
    pub fn crates(&self, library: &str) -> Result<Vec<String>, String> {
        let exporter = self.exporter(library)?;
        let text = self.read()?;
        let lines = lines(&text);
        let mut found = vec![exporter.as_str()];
        let mut next = 0;
        while let Some(name) = found.get(next) {
            let needs = lines.get(name).map(|line| &line.needs);
            for need in needs.into_iter().flatten() {
                if !found.contains(need) {
                    found.push(need);
                }
            }
            next += 1;
        }
        found.retain(|name| self.root.join("crates").join(name).is_dir());
        found.sort_unstable();
        Ok(found.into_iter().map(String::from).collect())
    }

    /// The list, and the folders that an archive is made from.
    pub fn sources(&self, library: &str) -> Result<Vec<PathBuf>, String> {
        let crates = self.root.join("crates");
        let names = self.crates(library)?;
        let folders = names.iter().flat_map(|name| {
            let own = crates.join(name);
            PARTS.map(|part| own.join(part))
        });
        let there = folders.filter(|folder| folder.is_dir());
        Ok([self.list()].into_iter().chain(there).collect())
    }

    fn read(&self) -> Result<String, String> {
        let list = self.list();
        let cannot = |error| format!("{} cannot be read: {error}", list.display());
        fs::read_to_string(&list).map_err(cannot)
    }
}

/// What a crate's line says.
struct Line<'a> {
    exports: bool,
    needs: Vec<&'a str>,
}

/// The lines by the names of their crates, without remarks.
fn lines(text: &str) -> BTreeMap<&str, Line<'_>> {
    let plain = text.lines().filter_map(|line| line.split('#').next());
    let halves = plain.filter_map(|line| line.split_once(':'));
    let named = halves.filter_map(|(own, needs)| {
        let mut own = own.split_whitespace();
        let name = own.next()?;
        let exports = own.any(|word| word == "staticlib");
        let needs = needs.split_whitespace().collect();
        Some((name, Line { exports, needs }))
    });
    named.collect()
}

#[cfg(test)]
mod tests {
    use super::*;
    use crate::trial::Folder;

    #[test]
    fn the_nearest_one_above() {
        let folder = Folder::repository();
        let package = folder.path().join("host/some/package");
        fs::create_dir_all(&package).unwrap();
        let found = Repository::above(&package).unwrap();
        assert_eq!(found.root(), folder.path());
        assert!(Repository::above(Folder::new().path()).is_none());
    }

    /// The crate below the one below counts, the kit's libraries do not.
    #[test]
    fn all_that_a_crate_depends_on() {
        let folder = Folder::repository();
        let repository = Repository::above(folder.path()).unwrap();
        let crates = |library: &str| repository.crates(library);
        assert_eq!(crates("top").unwrap(), ["low", "middle", "top"]);
        assert_eq!(crates("middle").unwrap(), ["low", "middle", "middle_c"]);
        for name in ["low", "none"] {
            let words = crates(name).unwrap_err();
            let expected = format!("lists no crate that exports {name}");
            assert!(words.ends_with(&expected), "{words}");
        }
    }

    /// A library that crates above it use has its exports in a crate of their own.
    #[test]
    fn which_crate_exports_a_library() {
        let folder = Folder::repository();
        let repository = Repository::above(folder.path()).unwrap();
        let exporters = ["top", "middle", "middle_c"].map(|name| repository.exporter(name));
        assert_eq!(
            exporters.map(Result::unwrap),
            ["top", "middle_c", "middle_c"]
        );
    }

    #[test]
    fn the_folders_that_count() {
        let folder = Folder::repository();
        let repository = Repository::above(folder.path()).unwrap();
        let sources = repository.sources("middle").unwrap();
        let names = [
            "crates.txt",
            "crates/low/src",
            "crates/middle/src",
            "crates/middle_c/src",
        ];
        assert_eq!(sources, names.map(|name| folder.path().join(name)));
    }
}
