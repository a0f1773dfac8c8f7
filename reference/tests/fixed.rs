//! The fixed scripts against the reference, and `compare` against the reference itself.

use std::process::{Command, Output};

use reference::fixed;

#[test]
fn fixed_scripts_print_what_the_rule_book_says() {
    let scripts = fixed::load(&fixed::directory()).expect("the fixed scripts");
    for script in scripts {
        let (printed, _) = script.program.reference(&script.input);
        assert_eq!(
            String::from_utf8_lossy(&printed),
            String::from_utf8_lossy(&script.output),
            "{}",
            script.name
        );
    }
}

fn compare(arguments: &[&str]) -> Output {
    Command::new(env!("CARGO_BIN_EXE_compare"))
        .args(arguments)
        .output()
        .expect("compare starts")
}

const REPLAY: &str = env!("CARGO_BIN_EXE_reference-replay");
const AXES: &str = env!("CARGO_BIN_EXE_reference-axes");

#[test]
fn the_reference_does_not_differ_from_itself() {
    let output = compare(&[REPLAY, AXES, "--scripts", "600"]);
    let printed = String::from_utf8_lossy(&output.stdout);
    assert!(output.status.success(), "{printed}");
    assert!(printed.ends_with("no difference\n"), "{printed}");
}

#[test]
fn another_program_is_found_out() {
    let output = compare(&[AXES, AXES]);
    let printed = String::from_utf8_lossy(&output.stdout);
    assert_eq!(output.status.code(), Some(1), "{printed}");
    assert!(printed.starts_with("difference: "), "{printed}");
}

#[test]
fn a_missing_program_is_told() {
    let output = compare(&["no-such-program", AXES]);
    let told = String::from_utf8_lossy(&output.stderr);
    assert_eq!(output.status.code(), Some(2), "{told}");
    assert!(told.contains("no-such-program"), "{told}");
}
