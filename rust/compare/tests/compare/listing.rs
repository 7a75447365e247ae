//! The listing program against the second implementation's listing, byte for byte.

use compare::{aged_day, damage, heaviest, names, room, sheet, working_day, Random};
use second::{listing, Sheet};
use std::io::{ErrorKind, Read, Write};
use std::path::{Path, PathBuf};
use std::process::{Command, Stdio};
use std::thread;

/// The length of the longest sheet: 64 vessels and 4,096 movements.
const LONGEST: usize = 49_688;

/// The program that `LUMCHAKI_LIST` names, or the one that the build left, if it did.
fn program() -> Option<PathBuf> {
    let built = Path::new(env!("CARGO_MANIFEST_DIR")).join("../../crates/list/out/list");
    let named = std::env::var_os("LUMCHAKI_LIST").map(PathBuf::from);
    named.or_else(|| built.exists().then_some(built))
}

/// Runs the program on an input, which arrives in parts of this size.
fn list(program: &Path, input: &[u8], part: usize) -> Vec<u8> {
    let mut child = Command::new(program)
        .stdin(Stdio::piped())
        .stdout(Stdio::piped())
        .spawn()
        .expect("the listing program starts");
    let mut stdin = child.stdin.take().expect("standard input is a pipe");
    let mut stdout = child.stdout.take().expect("standard output is a pipe");
    let mut output = Vec::new();
    thread::scope(|scope| {
        scope.spawn(move || {
            for part in input.chunks(part) {
                match stdin.write_all(part) {
                    // It may stop reading once it has seen too much.
                    Err(error) if error.kind() == ErrorKind::BrokenPipe => return,
                    written => written.expect("the pipe takes the input"),
                }
            }
        });
        stdout
            .read_to_end(&mut output)
            .expect("the pipe gives the output");
    });
    let status = child.wait().expect("the listing program ends");
    assert!(status.success(), "the listing program: {status}");
    output
}

/// The program, and what its listings were about.
#[derive(Debug, Default)]
struct Covered {
    program: PathBuf,
    full: u32,
    /// Of the full ones, those of a sheet without movements: the first line alone.
    first_line: u32,
    stopped: u32,
    stopped_at_21: u32,
    refused: u32,
}

impl Covered {
    fn check(&mut self, input: &[u8], part: usize) {
        let expected = listing(input);
        let output = list(&self.program, input, part);
        if output != expected.as_bytes() {
            let path = std::env::temp_dir().join("lumchaki-differs.sheet");
            std::fs::write(&path, input).expect("the temporary directory takes a file");
            let output = String::from_utf8_lossy(&output);
            panic!("{}: {output}wanted {expected}", path.display());
        }
        if expected.starts_with("refused") {
            self.refused += 1;
        } else if expected.contains("stopped") {
            self.stopped += 1;
            self.stopped_at_21 += u32::from(expected.ends_with(" at 21\n"));
        } else {
            self.full += 1;
            self.first_line += u32::from(expected.contains(" accepted 0 "));
        }
    }

    /// Good sheets and damaged ones.
    fn any_sheets(&mut self, random: &mut Random) {
        for round in 0..2_500 {
            let mut bytes = sheet(random, 40).bytes();
            if round % 2 == 1 {
                damage(random, &mut bytes);
            }
            let part = random.one_of(&[1 << 20, 1 << 20, 1 << 20, 7, 64]);
            self.check(&bytes, part);
        }
    }

    /// The longest sheets under a rule, and longer ones.
    fn long_sheets(&mut self, random: &mut Random, rule: u32) {
        self.check(&heaviest(rule).bytes(), 1 << 20);
        let day = working_day(random, rule).bytes();
        assert_eq!(day.len(), LONGEST);
        self.check(&day, 4_000);
        self.check(&aged_day(random, rule).bytes(), 4_000);
        // Longer than the longest sheet, with a header that agrees with its own length or not.
        for more in [1, 11, 12, 100, LONGEST, 200_000] {
            let mut longer = day.clone();
            longer.resize(LONGEST + more, 0);
            self.check(&longer, 1 << 20);
            longer[20..24].copy_from_slice(&((LONGEST + more) as u32).to_le_bytes());
            self.check(&longer, 4_096);
            longer[8..12].copy_from_slice(&4097u32.to_le_bytes());
            self.check(&longer, 1 << 20);
            longer[0] = b'p';
            self.check(&longer, 1 << 20);
        }
        // A short sheet with much behind it.
        let mut longer = sheet(random, 9).bytes();
        longer.resize(60_000, 0);
        self.check(&longer, 1 << 20);
    }

    /// Sheets without movements under a rule, of every count of vessels.
    fn no_movements(&mut self, random: &mut Random, rule: u32) {
        for vessels in 1..=64 {
            let nothing = Sheet {
                rule,
                names: names(random, vessels),
                movements: Vec::new(),
            };
            self.check(&nothing.bytes(), 1 << 20);
        }
    }
}

#[test]
fn program_lists_what_the_second_implementation_lists() {
    let Some(program) = program() else {
        let _ = std::io::stdout().write_all(b"listing program: skipped, it is not built\n");
        return;
    };
    let mut random = Random::new(31);
    let mut covered = Covered {
        program,
        ..Covered::default()
    };
    covered.any_sheets(&mut random);
    for rule in 0..4 {
        covered.long_sheets(&mut random, rule);
        covered.no_movements(&mut random, rule);
    }
    for length in [0, 1, 4, 23, 24, LONGEST, LONGEST + 1] {
        let bytes: Vec<u8> = room(&mut random, length).iter().map(|&n| n as u8).collect();
        covered.check(&bytes, 1 << 20);
    }
    let text = format!("listing program: {covered:?}\n");
    let _ = std::io::stdout().write_all(text.as_bytes());
    assert!(covered.full > 500 && covered.stopped > 300 && covered.refused > 700);
    assert!(covered.stopped_at_21 > 50 && covered.first_line >= 256);
}
