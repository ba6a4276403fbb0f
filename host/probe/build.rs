//! Links the proved text layer.

fn main() {
    archive::link("text_probe");
}
