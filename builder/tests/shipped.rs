//! The archive that ships is for x86-64. A caller in C, which passes null pointers too, tries it, on another machine where that has an emulator.

use std::process::Command;

#[test]
fn the_shipped_archive_serves_a_caller_in_c() {
    let script = concat!(env!("CARGO_MANIFEST_DIR"), "/tests/call-shipped");
    let ran = Command::new(script).output().expect("the script starts");
    let (said, told) = (String::from_utf8_lossy(&ran.stdout), String::from_utf8_lossy(&ran.stderr));
    assert!(ran.status.success(), "{said}{told}");
    assert!(said.ends_with("34 calls, 0 differ\n"), "{said}{told}");
}
