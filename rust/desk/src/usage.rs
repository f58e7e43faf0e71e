//! Commands and their options.

use crate::judging::Relation;
use crate::words::alike;
use exchange::Capacity;
use std::ffi::OsString;

/// What the program is asked to do.
#[derive(Clone, PartialEq, Eq, Debug)]
pub enum Command {
    /// Judge files and folders.
    Judge(Vec<String>, Relation, Capacity),
    /// Explain a file.
    Explain(String, Capacity),
    /// Draw a file with names merged.
    Draw(String, Vec<(String, String)>, Option<String>, Capacity),
    /// Report on files and folders.
    Report(Vec<String>, Option<String>, Capacity),
    /// Write the question of a file.
    Bytes(String, Option<String>),
    /// Write a question as text.
    Text(String, Option<String>),
    /// Print this.
    Print(&'static str),
}

/// The version.
const VERSION: &str = concat!("desk ", env!("CARGO_PKG_VERSION"), "\n");

/// All commands.
pub const HELP: &str = "\
desk reads exchanges as text, judges, explains and draws them.

    desk judge FILE…|FOLDER              a line a file, worst first
    desk explain FILE                    why its parts are the same, different or unsettled
    desk draw FILE -o FILE.svg           the two parts side by side
    desk report FOLDER -o FILE.html      verdicts, drawings and explanations on one page
    desk bytes FILE -o FILE              the question that a file says
    desk text FILE                       a question as such a file
    desk COMMAND --help                  more on one of them
    desk --version

A file has definitions, two parts and the names held apart:

    # newcomer rule, English and translation
    Confirm(home, reply) = reply<home>.Confirm(home, reply)
    old = entry(x).0 | office<card>.0
    new = entry(x).office<card>.0 + office<card>.entry(x).0
    apart: entry office

Definitions begin with a capital letter, names with a small one. Prefixes are tau. a(x). a<b>. and
a<new x>. ; then there are (new x)P, [a=b]P, P + Q, P | Q, 0 and calls K(a, b). Prefixes, matches
and restrictions bind tightest, then +, then |. `apart: a b c, d e` holds a, b and c apart from each
other, and d from e. A name used free gets a byte in order of first use; a first line `names: a b`
gives another order. A comment begins with #. A file name - is standard input.
";

const JUDGE: &str = "\
desk judge [--late | --early] [--capacity N] FILE…|FOLDER

Judges every file, and of a folder those that end in .exchange: a line a file, worst first, then a
line with the counts. A file is text or the bytes of a question.

    --late          different names stay different, and one answer to an input does for every name
                    received; the names held apart play no part
    --early         the same, but each name received may have an answer of its own
    --capacity N    look at up to N situations, 1 to 4096; 256 if not given

Exit status: 0 all same, 1 some different, 2 some unsettled, 3 some refused or unreadable, 4 usage.
";

const EXPLAIN: &str = "\
desk explain [--capacity N] FILE

Tells why the two parts are different (the shortest play that tells them apart), the same (what that
covers, and the fewest names that had to be apart) or unsettled (which limit, where, what to try).

    --capacity N    look at up to N situations, 1 to 4096; 256 if not given

Exit status: 0 same, 1 different, 2 unsettled, 3 refused or unreadable, 4 usage.
";

const DRAW: &str = "\
desk draw [--merge a=b]… [--capacity N] FILE -o FILE.svg

Draws the two parts side by side: components as boxes, names as nodes, a line from a box to each name
that it uses. Names merged are one node, names held apart are marked, and the first move of the play
that tells the parts apart is drawn in another colour; below, if the play is longer, its last move.

    --merge a=b     draw a and b as one name; a=b=c for more, and may be given several times
    --capacity N    look at up to N situations for the play, 1 to 4096; 256 if not given
    -o FILE.svg     where to write it; standard output if not given

Exit status: 0 drawn, 3 refused or unreadable, 4 usage.
";

const REPORT: &str = "\
desk report [--capacity N] FILE…|FOLDER -o FILE.html

Writes one page, which needs no other file, with the verdict, the drawing and the explanation of
every file, worst first.

    --capacity N    look at up to N situations, 1 to 4096; 256 if not given
    -o FILE.html    where to write it; standard output if not given

Exit status: as of desk judge.
";

const BYTES: &str = "\
desk bytes FILE [-o FILE]

Writes the question that a file says, byte by byte, to a file or to standard output.
Exit status: 0 written, 3 refused or unreadable, 4 usage.
";

const TEXT: &str = "\
desk text FILE [-o FILE]

Writes the bytes of a question as a file of text, which reads back to the same bytes.
Exit status: 0 written, 3 refused or unreadable, 4 usage.
";

/// The command of these arguments.
///
/// # Errors
/// What is wrong with them.
pub fn command(arguments: impl IntoIterator<Item = OsString>) -> Result<Command, String> {
    let mut words = Vec::new();
    for argument in arguments {
        words.push(argument.into_string().map_err(|argument| {
            format!("an argument is no text in UTF-8: {}", argument.to_string_lossy())
        })?);
    }
    let Some((name, rest)) = words.split_first() else {
        return Err("a command is missing".to_string());
    };
    let help = match name.as_str() {
        "judge" => JUDGE,
        "explain" => EXPLAIN,
        "draw" => DRAW,
        "report" => REPORT,
        "bytes" => BYTES,
        "text" => TEXT,
        "help" | "--help" | "-h" => return Ok(Command::Print(HELP)),
        "--version" | "-V" => return Ok(Command::Print(VERSION)),
        _ => return Err(unknown(name)),
    };
    let given = Given::read(rest, name)?;
    if given.help {
        return Ok(Command::Print(help));
    }
    match name.as_str() {
        "judge" => {
            Ok(Command::Judge(given.some()?, given.relation.unwrap_or_default(), given.capacity))
        }
        "explain" => Ok(Command::Explain(given.one()?, given.capacity)),
        "draw" => Ok(Command::Draw(given.one()?, given.merged, given.output, given.capacity)),
        "report" => Ok(Command::Report(given.some()?, given.output, given.capacity)),
        "bytes" => Ok(Command::Bytes(given.one()?, given.output)),
        _ => Ok(Command::Text(given.one()?, given.output)),
    }
}

/// What is wrong with a command that there is not.
fn unknown(name: &str) -> String {
    let commands = ["judge", "explain", "draw", "report", "bytes", "text", "help"];
    match alike(name, commands) {
        Some(command) => format!("there is no command `{name}`; did you mean `{command}`?"),
        None => format!("there is no command `{name}`"),
    }
}

/// The options that each command takes.
fn takes(command: &str, option: &str) -> bool {
    let commands: &[&str] = match option {
        "--late" | "--early" => &["judge"],
        "--capacity" => &["judge", "explain", "draw", "report"],
        "--merge" => &["draw"],
        "-o" => &["draw", "report", "bytes", "text"],
        _ => &[],
    };
    commands.contains(&command)
}

/// The relation that an option names.
fn relation(option: &str) -> Option<Relation> {
    match option {
        "--late" => Some(Relation::Late),
        "--early" => Some(Relation::Early),
        _ => None,
    }
}

/// What was given to a command.
#[derive(Default)]
struct Given {
    files: Vec<String>,
    output: Option<String>,
    merged: Vec<(String, String)>,
    relation: Option<Relation>,
    capacity: Capacity,
    help: bool,
}

impl Given {
    fn read(words: &[String], command: &str) -> Result<Given, String> {
        let mut given = Given::default();
        let mut words = words.iter();
        while let Some(word) = words.next() {
            match word.as_str() {
                "--" => given.files.extend(words.by_ref().cloned()),
                "--help" | "-h" => given.help = true,
                "-" => given.files.push(word.clone()),
                _ if word.starts_with('-') => {
                    let (option, value) = match word.split_once('=') {
                        Some((option, value)) => (option, Some(value.to_string())),
                        None => (word.as_str(), None),
                    };
                    if !takes(command, option) {
                        return Err(format!("desk {command} has no option `{option}`"));
                    }
                    if let Some(relation) = relation(option) {
                        given.judge_by(relation, value)?;
                        continue;
                    }
                    let value = value.or_else(|| words.next().cloned());
                    let value = value.ok_or_else(|| format!("`{option}` needs a value"))?;
                    given.option(option, value)?;
                }
                _ => given.files.push(word.clone()),
            }
        }
        Ok(given)
    }

    /// Takes `--late` or `--early`, which have no value and of which one is enough.
    fn judge_by(&mut self, relation: Relation, value: Option<String>) -> Result<(), String> {
        if let Some(value) = value {
            return Err(format!("`--late` and `--early` take no value, such as `{value}`"));
        }
        match self.relation.replace(relation) {
            Some(other) if other != relation => {
                Err("one of `--late` and `--early` is enough".to_string())
            }
            _ => Ok(()),
        }
    }

    fn option(&mut self, option: &str, value: String) -> Result<(), String> {
        match option {
            "--capacity" => {
                let capacity = value.parse().ok().and_then(Capacity::new);
                let text = exchange::Refusal::Capacity.text();
                self.capacity = capacity.ok_or_else(|| format!("{text}: `{value}`"))?;
            }
            "--merge" => {
                let names: Vec<String> = value.split('=').map(|name| name.trim().into()).collect();
                if names.len() < 2 || names.iter().any(String::is_empty) {
                    return Err(format!("`--merge` takes names, a=b or a=b=c, not `{value}`"));
                }
                let pairs = names.windows(2).map(|pair| (pair[0].clone(), pair[1].clone()));
                self.merged.extend(pairs);
            }
            _ => self.output = Some(value),
        }
        Ok(())
    }

    fn one(&self) -> Result<String, String> {
        match self.files.as_slice() {
            [file] => Ok(file.clone()),
            [] => Err("a file is missing".to_string()),
            [_, more, ..] => Err(format!("one file is enough, and `{more}` is another")),
        }
    }

    fn some(&self) -> Result<Vec<String>, String> {
        match self.files.is_empty() {
            true => Err("a file or folder is missing".to_string()),
            false => Ok(self.files.clone()),
        }
    }
}

#[cfg(test)]
mod tests {
    use super::*;

    fn read(words: &str) -> Result<Command, String> {
        command(words.split_whitespace().map(OsString::from))
    }

    #[test]
    fn commands_and_options() {
        let files = |names: &[&str]| names.iter().map(|name| name.to_string()).collect();
        let default = Capacity::default();
        let open = Relation::Open;
        assert_eq!(read("judge a b"), Ok(Command::Judge(files(&["a", "b"]), open, default)));
        assert_eq!(
            read("judge --capacity 4096 -- -a"),
            Ok(Command::Judge(files(&["-a"]), open, Capacity::MAX))
        );
        assert_eq!(
            read("judge --late a"),
            Ok(Command::Judge(files(&["a"]), Relation::Late, default))
        );
        assert_eq!(
            read("judge a --early b"),
            Ok(Command::Judge(files(&["a", "b"]), Relation::Early, default))
        );
        let merged =
            [("a", "b"), ("c", "d"), ("d", "e")].map(|(a, b)| (a.into(), b.into())).to_vec();
        assert_eq!(
            read("draw f --merge a=b --merge c=d=e -o g"),
            Ok(Command::Draw("f".into(), merged, Some("g".into()), default))
        );
        assert_eq!(read("text --help"), Ok(Command::Print(TEXT)));
        assert_eq!(read("--version"), Ok(Command::Print(VERSION)));
    }

    #[test]
    fn wrong_arguments() {
        for words in [
            "",
            "jugde a",
            "judge",
            "explain a b",
            "judge --late --early a",
            "judge --late=1 a",
            "explain --late a",
            "judge --capacity 0 a",
            "judge --capacity 4097 a",
            "judge --capacity",
            "draw a --merge ab",
            "draw a --merge a=",
            "bytes --capacity 3 a",
        ] {
            assert!(read(words).is_err(), "{words}");
        }
        let wrong = "there is no command `jugde`; did you mean `judge`?".to_string();
        assert_eq!(read("jugde a"), Err(wrong));
    }
}
