//! The C example compiles without a warning against the header and the library, and runs.

use std::path::Path;
use std::process::Command;

/// The weighing; the pieces of the six movements and of the delivery of older flour, born at 9 - 7,
/// with what was weighed in vessel 1, behind what came there meanwhile, less the gram that went by
/// its own rule to vessel 2; then the report.
const OUTPUT: &str = "\
3 g on the scale
holder origin birth weight
     0      2     3      2
     2      1     5      3
     0      1     2      3
     1      1     5      1
     1      1     1      1
     1      1     1      1
     2      1     1      1
vessel 0 holds 0 g from vessel 0
vessel 0 holds 3 g from vessel 1
vessel 0 holds 2 g from vessel 2
";

#[test]
fn c_example_compiles_and_runs() {
    let root = Path::new(env!("CARGO_MANIFEST_DIR")).join("../..");
    let program = Path::new(env!("CARGO_TARGET_TMPDIR")).join("embed");
    let compiled = Command::new("gcc")
        .args(["-std=c99", "-Wall", "-Wextra", "-pedantic", "-Werror"])
        .arg("-I")
        .arg(root.join("include"))
        .arg(root.join("examples/embed.c"))
        .arg(root.join("crates/lumchaki/out/liblumchaki.a"))
        .arg("-o")
        .arg(&program)
        .status()
        .expect("gcc starts");
    assert!(compiled.success());
    let output = Command::new(&program).output().expect("the example starts");
    let text = String::from_utf8_lossy(&output.stdout);
    assert!(output.status.success(), "{text}");
    assert_eq!(text, OUTPUT);
}
