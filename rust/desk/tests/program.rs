//! The program as a person runs it.

use exchange::{Judge, Question};
use generate::Random;
use std::fs;
use std::io::Write;
use std::path::{Path, PathBuf};
use std::process::{Command, Output, Stdio};

const NEWCOMER: &str = "old = entry(x).0 | office<card>.0\n\
                        new = entry(x).office<card>.0 + office<card>.entry(x).0\n";

/// Ten outputs, then a call whose step leaves 113 bytes.
fn long() -> String {
    let silent = |steps: usize| format!("{}0", "tau.".repeat(steps));
    let part = format!("First(b) | {}", silent(12));
    let outputs = "a<a>.".repeat(10);
    format!("Long = {}\nFirst(a) = {outputs}Long\nold = {part}\nnew = {part}\n", silent(99))
}

/// A folder of its own for a test, which goes with it.
struct Folder(PathBuf);

impl Folder {
    fn new(test: &str) -> Folder {
        let path = std::env::temp_dir().join(format!("desk-{test}-{}", std::process::id()));
        fs::create_dir_all(&path).expect("a folder can be made");
        Folder(path)
    }

    fn file(&self, name: &str, content: impl AsRef<[u8]>) -> String {
        let path = self.0.join(name);
        fs::write(&path, content).expect("a file can be written");
        path.to_str().expect("a path").to_string()
    }

    fn path(&self) -> &str {
        self.0.to_str().expect("a path")
    }
}

impl Drop for Folder {
    fn drop(&mut self) {
        let _ = fs::remove_dir_all(&self.0);
    }
}

fn desk(arguments: &[&str]) -> Output {
    let program = Command::new(env!("CARGO_BIN_EXE_desk")).args(arguments).output();
    program.expect("the program runs")
}

fn status(output: &Output) -> i32 {
    output.status.code().expect("it ends by itself")
}

fn printed(output: &Output) -> String {
    String::from_utf8(output.stdout.clone()).expect("text")
}

/// What is printed, as one line.
fn told(arguments: &[&str]) -> String {
    printed(&desk(arguments)).split_whitespace().collect::<Vec<_>>().join(" ")
}

fn complained(output: &Output) -> String {
    String::from_utf8(output.stderr.clone()).expect("text")
}

/// The newcomers' pair parts ways only where two names coincide, and late and early judging keep
/// them different; the other pair is told apart by late judging alone.
#[test]
fn late_and_early() {
    let folder = Folder::new("relations");
    let newcomer = folder.file("newcomer.exchange", NEWCOMER);
    let answers = "old = a(x).tau.0 + a(x).0\n\
                   new = a(x).tau.0 + a(x).0 + a(x).[x=b]tau.0\n";
    let answers = folder.file("answers.exchange", answers);
    let verdict = |options: &[&str], file: &str| {
        let judged = desk(&[&["judge"], options, &[file]].concat());
        let line = printed(&judged);
        (line.split_whitespace().take(2).collect::<Vec<_>>().join(" "), status(&judged))
    };
    assert_eq!(verdict(&[], &newcomer), ("different 4".to_string(), 1));
    assert_eq!(verdict(&["--late"], &newcomer), ("same 4".to_string(), 0));
    assert_eq!(verdict(&["--early"], &newcomer), ("same 4".to_string(), 0));
    assert_eq!(verdict(&["--late"], &answers), ("different 11".to_string(), 1));
    assert_eq!(verdict(&["--early"], &answers), ("same 11".to_string(), 0));
    assert_eq!(verdict(&["--early", "--capacity", "10"], &answers).1, 2);
}

#[test]
fn a_folder_worst_first() {
    let folder = Folder::new("folder");
    folder.file("a.exchange", "old = tau.0 + [a=b]tau.0\nnew = tau.0");
    folder.file("b.exchange", NEWCOMER);
    folder.file("c.exchange", long());
    folder.file("d.exchange", "old = K\nnew = 0");
    folder.file("e.exchange", [1, 0, 0, 1, 0, 0, 1, 0, 0, 0]);
    folder.file("notes.txt", "not an exchange");
    let judged = desk(&["judge", folder.path()]);
    let lines: Vec<String> = printed(&judged)
        .lines()
        .map(|line| line.replace(&format!("{}/", folder.path()), ""))
        .collect();
    assert_eq!(
        lines,
        [
            "refused 8      d.exchange:1:7: there is no definition of `K`",
            "unsettled      c.exchange",
            "different 4    b.exchange",
            "same 2         a.exchange",
            "same 1         e.exchange",
            "5 files: 2 same, 1 different, 1 unsettled, 1 refused or unreadable",
        ]
    );
    assert_eq!(status(&judged), 3);
    assert!(complained(&judged).contains("1 passed over"));
}

#[test]
fn the_exit_status_is_that_of_the_worst() {
    let folder = Folder::new("status");
    let same = folder.file("same.exchange", "old = 0\nnew = 0");
    let different = folder.file("different.exchange", NEWCOMER);
    let unsettled = folder.file("unsettled.exchange", long());
    let missing = folder.0.join("missing.exchange");
    let missing = missing.to_str().expect("a path");
    let judged = |files: &[&str]| status(&desk(&[&["judge"], files].concat()));
    assert_eq!(judged(&[&same, &same]), 0);
    assert_eq!(judged(&[&same, &different]), 1);
    assert_eq!(judged(&[&unsettled, &different]), 2);
    assert_eq!(judged(&[&unsettled, missing]), 3);
    assert_eq!(judged(&["--capacity", "2", &different]), 2);
    for (file, expected) in [(&same, 0), (&different, 1), (&unsettled, 2)] {
        assert_eq!(status(&desk(&["explain", file])), expected);
    }
    assert_eq!(status(&desk(&["explain", missing])), 3);
    for wrong in [&["judge"][..], &["explain", "--early", &same], &["jugde"], &[]] {
        assert_eq!(status(&desk(wrong)), 4);
    }
    for help in [&["--help"][..], &["judge", "--help"], &["draw", "-h"]] {
        assert_eq!(status(&desk(help)), 0);
    }
}

#[test]
fn explain_tells_the_play() {
    let folder = Folder::new("explain");
    let newcomer = folder.file("a.exchange", NEWCOMER);
    let different = printed(&desk(&["explain", &newcomer]));
    for line in [
        "old and new are different: 4 situations looked at.",
        "If entry and office are one name, old makes a silent step and becomes",
        "  - it receives a name on entry: another kind of move",
        "The library judges this position different.",
        "With `apart: entry office` they would be the same; no fewer pairs do.",
    ] {
        assert!(different.contains(line), "{different}");
    }
}

/// Moves that names held apart forbid are not told; others are told with their conditions.
#[test]
fn explain_tells_what_the_other_can_do() {
    let folder = Folder::new("other");
    let file = "old = [a=b]c<c>.0 + [a=c]tau.0 + [a=b]d<d>.0\nnew = c<c>.0\napart: a c, c d\n";
    let different = told(&["explain", &folder.file("a.exchange", file)]);
    let all = "old has no answer. All that it can do: \
               - it sends c on c only if a and b are one name, and the move does not ask for that \
               - it sends d on d only if a and b are one name: another channel The library";
    assert!(different.contains(all), "{different}");
}

#[test]
fn explain_tells_what_had_to_be_apart() {
    let folder = Folder::new("apart");
    let apart = format!("{NEWCOMER}apart: entry office, entry card");
    let same = told(&["explain", &folder.file("a.exchange", apart)]);
    let fewest = "The fewest that had to be apart: entry and office (1 of 2 pairs listed).";
    assert!(same.contains(fewest), "{same}");
}

#[test]
fn explain_tells_the_limit() {
    let folder = Folder::new("limit");
    let file = folder.file("a.exchange", NEWCOMER);
    let small = told(&["explain", "--capacity", "2", &file]);
    assert!(small.contains("At capacity 256 the library answers: different 4."), "{small}");
    let long = told(&["explain", &folder.file("b.exchange", long())]);
    assert!(long.contains("After 10 answered moves, old is past a limit"), "{long}");
    let names: String = (0..16).map(|number| format!("n{number}<n{number}>.")).collect();
    let full = format!("old = n0(x).{names}0\nnew = n0(x).{names}0\n");
    let full = told(&["explain", &folder.file("c.exchange", full)]);
    assert!(full.contains("all 16 names are in use"), "{full}");
}

#[test]
fn bytes_and_text_are_inverse() {
    let folder = Folder::new("bytes");
    let file = folder.file("a.exchange", NEWCOMER);
    let question = desk(&["bytes", &file]).stdout;
    assert_eq!(&question[..6], [1, 0, 0, 8, 7, 2]);
    let bytes = folder.file("a.question", &question);
    let text = folder.0.join("b.exchange");
    let text = text.to_str().expect("a path");
    assert_eq!(status(&desk(&["text", &bytes, "-o", text])), 0);
    assert_eq!(desk(&["bytes", text]).stdout, question);
    for (file, reason) in [(&file, "this is text"), (&folder.file("empty", ""), "rule 3")] {
        let refused = desk(&["text", file]);
        assert_eq!(status(&refused), 3);
        assert!(complained(&refused).contains(reason));
    }
}

#[test]
fn standard_input_is_a_file() {
    let mut program = Command::new(env!("CARGO_BIN_EXE_desk"))
        .args(["judge", "-"])
        .stdin(Stdio::piped())
        .stdout(Stdio::piped())
        .spawn()
        .expect("the program runs");
    program.stdin.take().expect("it is piped").write_all(NEWCOMER.as_bytes()).expect("it reads");
    let output = program.wait_with_output().expect("it ends");
    assert_eq!(status(&output), 1);
}

#[test]
fn files_that_are_none() {
    let folder = Folder::new("none");
    let long = folder.file("long.exchange", vec![b' '; (1 << 20) + 1]);
    assert!(complained(&desk(&["explain", &long])).contains("longer than 1 MiB"));
    let empty = folder.0.join("empty");
    fs::create_dir(&empty).expect("a folder can be made");
    fs::create_dir(empty.join("folder.exchange")).expect("a folder can be made");
    let empty = desk(&["judge", Path::new(&empty).to_str().expect("a path")]);
    assert_eq!(status(&empty), 3);
    assert!(printed(&empty).contains("no file in this folder ends in .exchange"));
    let explained = desk(&["explain", folder.path()]);
    assert_eq!(status(&explained), 3);
    assert!(complained(&explained).contains("this is a folder, and one file is needed"));
    assert_eq!(status(&desk(&["draw", &long, "-o", folder.path()])), 3);
}

/// The processor time of all programs that were run and have ended, in hundredths of a second.
fn spent() -> u64 {
    let stat = fs::read_to_string("/proc/self/stat").expect("Linux tells");
    let (_, fields) = stat.rsplit_once(')').expect("the name of the program stands in parentheses");
    fields.split_whitespace().skip(13).take(2).filter_map(|ticks| ticks.parse::<u64>().ok()).sum()
}

/// A thousand random questions as text get the library's verdicts, in less than a second of
/// processor time, the library's own included.
#[test]
fn a_thousand_files() {
    let folder = Folder::new("thousand");
    let mut judge = Judge::default();
    let mut counts = [0; 3];
    let accepted = (0..).map(|seed| generate::any(&mut Random::new(seed)));
    let accepted = accepted.filter(|bytes| Question::new(bytes).is_ok());
    for (number, bytes) in accepted.take(1000).enumerate() {
        let question = Question::new(&bytes).expect("it was accepted");
        counts[usize::from(desk::judging::status(&judge.judge(question)))] += 1;
        let text = desk::text::file(&desk::model::Exchange::of(question));
        folder.file(&format!("{number}.exchange"), text);
    }
    let before = spent();
    let judged = desk(&["judge", folder.path()]);
    let spent = spent() - before;
    assert!(cfg!(debug_assertions) || spent < 100, "{spent} hundredths of a second");
    let [same, different, unsettled] = counts;
    let last = format!(
        "1000 files: {same} same, {different} different, {unsettled} unsettled, \
         0 refused or unreadable"
    );
    assert_eq!(printed(&judged).lines().last(), Some(last.as_str()));
}
