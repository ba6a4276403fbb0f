//! Which targets an archive is for: `rt` writes them for 64-bit x86-64 Linux alone.

use crate::variable;

/// What cargo says of the target of a build.
#[derive(Debug, Clone)]
pub struct Target {
    triple: String,
    arch: String,
    system: String,
    width: String,
}

impl Target {
    /// The target that the build script's package is compiled for.
    pub fn of_build() -> Target {
        Target {
            triple: variable("TARGET"),
            arch: variable("CARGO_CFG_TARGET_ARCH"),
            system: variable("CARGO_CFG_TARGET_OS"),
            width: variable("CARGO_CFG_TARGET_POINTER_WIDTH"),
        }
    }

    /// Whether archives are for this target; the reason if they are not.
    pub fn check(&self) -> Result<(), String> {
        let found = [&self.arch, &self.system, &self.width].map(String::as_str);
        if found == ["x86_64", "linux", "64"] {
            return Ok(());
        }
        Err(format!(
            "the proved archive is for x86-64 Linux, and this build is for {}. \
             Build for x86-64 Linux, with `--target x86_64-unknown-linux-gnu`, or leave this package out.",
            self.triple
        ))
    }
}

#[cfg(test)]
mod tests {
    use super::*;

    fn check([triple, arch, system, width]: [&str; 4]) -> Result<(), String> {
        let [triple, arch, system, width] = [triple, arch, system, width].map(String::from);
        let target = Target {
            triple,
            arch,
            system,
            width,
        };
        target.check()
    }

    #[test]
    fn linux_on_x86_64() {
        assert!(check(["x86_64-unknown-linux-gnu", "x86_64", "linux", "64"]).is_ok());
        assert!(check(["x86_64-unknown-linux-musl", "x86_64", "linux", "64"]).is_ok());
    }

    #[test]
    fn no_other() {
        for target in [
            ["aarch64-unknown-linux-gnu", "aarch64", "linux", "64"],
            ["x86_64-pc-windows-msvc", "x86_64", "windows", "64"],
            ["x86_64-unknown-linux-gnux32", "x86_64", "linux", "32"],
            ["x86_64-linux-android", "x86_64", "android", "64"],
            ["wasm32-unknown-unknown", "wasm32", "unknown", "32"],
        ] {
            let words = check(target).unwrap_err();
            assert!(words.contains(target[0]), "{words}");
            assert!(!words.contains('\n'), "{words}");
        }
    }
}
