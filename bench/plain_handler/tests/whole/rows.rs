//! The repository's rows and examples, run by the program.

use std::fs;
use std::path::{Path, PathBuf};
use std::process::{Command, Output, Stdio};

/// Gives the root folder of the repository.
fn root() -> PathBuf {
    Path::new(env!("CARGO_MANIFEST_DIR")).join("../..")
}

/// Gives the words of a file, one a line; none where there is no such file.
fn words(file: &Path) -> Vec<String> {
    fs::read_to_string(file).unwrap_or_default().lines().map(String::from).collect()
}

fn run(words: &[String], capture: &Path) -> Output {
    let input = fs::File::open(capture).unwrap();
    let mut command = Command::new(env!("CARGO_BIN_EXE_plain_handler"));
    command.args(words).stdin(Stdio::from(input)).output().unwrap()
}

/// Gives the texts that a row allows: one, or any of several.
fn wanted_texts(row: &Path) -> Vec<Vec<u8>> {
    let is_text = |name: &str| name == "stdout" || name.starts_with("stdout.");
    let files = fs::read_dir(row).unwrap().map(|file| file.unwrap());
    files
        .filter(|file| is_text(&file.file_name().to_string_lossy()))
        .map(|file| fs::read(file.path()).unwrap())
        .collect()
}

#[test]
fn each_row_gives_its_text_and_status() {
    let mut count = 0;
    for row in fs::read_dir(root().join("tests/rows")).unwrap() {
        let row = row.unwrap().path();
        if !row.join("capture").exists() {
            continue;
        }
        let output = run(&words(&row.join("args")), &row.join("capture"));
        let name = row.display();
        let status = fs::read_to_string(row.join("status")).unwrap().trim().parse().ok();
        assert_eq!(output.status.code(), status, "{name}");
        assert!(wanted_texts(&row).contains(&output.stdout), "{name}");
        if row.join("stderr.any").exists() {
            assert!(!output.stderr.is_empty(), "{name}");
        } else {
            assert!(output.stderr == fs::read(row.join("stderr")).unwrap(), "{name}");
        }
        count += 1;
    }
    assert!(count > 50, "{count} rows");
}

#[test]
fn each_row_gives_its_text_live() {
    for row in fs::read_dir(root().join("tests/rows")).unwrap() {
        let row = row.unwrap().path();
        if !row.join("capture").exists() || fs::read(row.join("status")).unwrap() != b"0\n" {
            continue;
        }
        let mut words = words(&row.join("args"));
        words.push("--live".to_owned());
        let output = run(&words, &row.join("capture"));
        assert!(wanted_texts(&row).contains(&output.stdout), "{}", row.display());
        assert!(output.status.success());
    }
}

/// Gives what `--books` prints of a run, by its text.
fn counts_of(text: &str) -> String {
    let lines = |letter: char| text.lines().filter(move |line| line.starts_with(letter));
    let ends: std::collections::BTreeSet<&str> =
        lines('C').chain(lines('F')).map(|line| line.split(' ').nth(1).unwrap()).collect();
    let mut sum = 0u64;
    for line in lines('C') {
        let (bids, offers) = line.split_once(" B").unwrap().1.rsplit_once(" O").unwrap();
        for best in [bids, offers].iter().filter_map(|levels| levels.split(' ').nth(1)) {
            let (price, size) = best.split_once('x').unwrap();
            sum = sum.wrapping_add(price.parse::<i64>().unwrap() as u64).wrapping_add(size.parse().unwrap());
        }
    }
    let faulty = lines('F').count();
    let end = lines('Z').next().unwrap().strip_prefix("Z ").unwrap();
    let (books, jumps) = (lines('C').count() + faulty, lines('J').count());
    format!("{} books {books} faulty {faulty} jumps {jumps} sum {sum} next {end}\n", ends.len())
}

#[test]
fn books_alone_are_those_of_the_text() {
    for row in fs::read_dir(root().join("tests/rows")).unwrap() {
        let row = row.unwrap().path();
        if !row.join("stdout").exists() || fs::read(row.join("status")).unwrap() != b"0\n" {
            continue;
        }
        let mut words = words(&row.join("args"));
        words.push("--books".to_owned());
        let output = run(&words, &row.join("capture"));
        // Event ends that print nothing are counted too, so their number is at least that of the text.
        let (first, rest) = std::str::from_utf8(&output.stdout).unwrap().split_once(" books ").unwrap();
        let wanted = counts_of(&fs::read_to_string(row.join("stdout")).unwrap());
        let (least, wanted) = wanted.split_once(" books ").unwrap();
        assert_eq!(rest, wanted, "{}", row.display());
        let event_ends: u64 = first.strip_prefix("event-ends ").unwrap().parse().unwrap();
        assert!(event_ends >= least.parse().unwrap());
    }
}

#[test]
fn each_example_gives_its_text() {
    for example in ["plain", "recovery", "join", "spread"] {
        let file = |ending| root().join(format!("examples/{example}.{ending}"));
        let output = run(&words(&file("args")), &file("capture"));
        assert!(output.stdout == fs::read(file("txt")).unwrap(), "{example}");
    }
}

#[test]
fn a_text_that_cannot_be_written_is_told() {
    let input = fs::File::open(root().join("examples/plain.capture")).unwrap();
    let full = fs::OpenOptions::new().write(true).open("/dev/full").unwrap();
    let mut command = Command::new(env!("CARGO_BIN_EXE_plain_handler"));
    let output = command.stdin(input).stdout(full).stderr(Stdio::piped()).spawn().unwrap().wait_with_output().unwrap();
    assert_eq!(output.status.code(), Some(1));
    assert_eq!(output.stderr, b"42 Output after 0 bytes\n");
}
#[test]
fn the_example_of_a_pcap_file_gives_its_text() {
    let channel = Path::new(env!("CARGO_TARGET_TMPDIR")).join("recovery.channel");
    let mut text = fs::read_to_string(root().join("examples/recovery.capture")).unwrap();
    text.retain(|character| character != '\r');
    let mut lines: Vec<&str> = text.lines().filter(|line| line.starts_with('I')).collect();
    // The file was made by text2pcap, which sends all feeds to one address.
    lines.extend(["F A 10.2.2.2 14310", "F B 10.2.2.2 15310", "F S 10.2.2.2 14320"]);
    fs::write(&channel, lines.join("\n")).unwrap();
    let words = ["--window", "4", "--channel", channel.to_str().unwrap()].map(String::from);
    let output = run(&words, &root().join("examples/recovery.pcap"));
    assert_eq!(
        String::from_utf8_lossy(&output.stdout),
        fs::read_to_string(root().join("examples/recovery.txt")).unwrap()
    );
}
