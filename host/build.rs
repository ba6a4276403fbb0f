//! Links the proved library.

use archive::Trouble;

fn main() {
    println!("cargo:rustc-check-cfg=cfg(muckposy_unlinked)");
    match archive::try_link("refine") {
        Ok(linked) => {
            // For the tests that link it once more.
            println!(
                "cargo:rustc-env=MUCKPOSY_LINKED_ARCHIVE={}",
                linked.display()
            );
            let target = std::env::var("TARGET").expect("set by cargo");
            println!("cargo:rustc-env=MUCKPOSY_LINKED_TARGET={target}");
        }
        // The documentation needs no archive; src/lib.rs ends any other build with these words.
        Err(Trouble::Missing(words)) => {
            println!("cargo:rustc-cfg=muckposy_unlinked");
            println!("cargo:rustc-env=MUCKPOSY_UNLINKED={words}");
        }
        Err(trouble) => archive::stop(&trouble),
    }
}
