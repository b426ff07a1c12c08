//! Runs the driver.

use std::process::Command;

/// Its status, output and error text.
pub fn ended(words: &[&str]) -> (Option<i32>, String, String) {
    let driver = Command::new(env!("CARGO_BIN_EXE_load_driver"))
        .args(words)
        .output()
        .expect("the driver starts");
    let text = |bytes| String::from_utf8(bytes).expect("it writes text");
    (
        driver.status.code(),
        text(driver.stdout),
        text(driver.stderr),
    )
}
