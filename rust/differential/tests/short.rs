//! A short run with a fixed seed; `fuzz` makes the long ones.

use std::process::Command;

#[test]
fn library_and_reference_agree() {
    let output = Command::new(env!("CARGO_BIN_EXE_differential"))
        .args(["3", "1"])
        .output()
        .expect("the program runs");
    let text = String::from_utf8_lossy(&output.stdout);
    assert!(output.status.success(), "{text}");
    assert!(text.starts_with("seed 1\n"), "{text}");
}
