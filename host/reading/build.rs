//! Links the proved readers of policies and records.

fn main() {
    archive::link("policy_probe");
}
