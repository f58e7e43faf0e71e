//! Files as they come: text, or the bytes of a question.

use crate::fault::{Fault, Span};
use crate::model::Exchange;
use crate::text;
use exchange::{Question, Refusal, QUESTION_BYTES};
use std::fs::{self, File};
use std::io::{self, Read};
use std::path::{Path, PathBuf};

/// The ending of the files that are taken from a folder.
pub const ENDING: &str = "exchange";

/// The greatest length of a file. No exchange is nearly so long.
const FILE_BYTES: u64 = 1 << 20;

/// The name that stands for standard input.
const STANDARD_INPUT: &str = "-";

/// Why a file gives no exchange.
#[derive(Clone, PartialEq, Eq, Debug)]
pub struct Unreadable {
    /// In one line, which begins with the file.
    pub line: String,
    /// In full.
    pub full: String,
    /// The rule of the library that is broken, if it is one.
    pub refusal: Option<Refusal>,
}

impl Unreadable {
    /// A reason that has no place in the file.
    pub fn plain(file: &str, reason: &str) -> Unreadable {
        let line = format!("{file}: {reason}");
        Unreadable { full: format!("error: {line}\n"), line, refusal: None }
    }

    fn fault(file: &str, source: &str, fault: &Fault) -> Unreadable {
        Unreadable {
            line: fault.line(file, source),
            full: fault.render(file, source),
            refusal: fault.refusal,
        }
    }

    /// A question that the library refuses.
    pub fn refused(file: &str, refusal: Refusal) -> Unreadable {
        Unreadable { refusal: Some(refusal), ..Unreadable::plain(file, &refusal.to_string()) }
    }

    /// What became of the file, in a word: refused by a rule, or unreadable.
    pub fn word(&self) -> String {
        match self.refusal {
            Some(refusal) => format!("refused {}", refusal.rule()),
            None => "unreadable".to_string(),
        }
    }
}

/// The bytes of a file, or of standard input.
pub fn bytes(file: &str) -> Result<Vec<u8>, Unreadable> {
    let told = |error: io::Error| match Path::new(file).is_dir() {
        true => Unreadable::plain(file, "this is a folder, and one file is needed"),
        false => Unreadable::plain(file, &error.to_string()),
    };
    let mut bytes = Vec::new();
    let read = match file {
        STANDARD_INPUT => io::stdin().lock().take(FILE_BYTES + 1).read_to_end(&mut bytes),
        _ => File::open(file).map_err(told)?.take(FILE_BYTES + 1).read_to_end(&mut bytes),
    };
    match read.map_err(told)? as u64 > FILE_BYTES {
        true => Err(Unreadable::plain(file, "it is longer than 1 MiB, and no exchange is")),
        false => Ok(bytes),
    }
}

/// Whether these are the bytes of a question: they begin with a version byte, which no text does.
pub fn is_question(bytes: &[u8]) -> bool {
    matches!(bytes.first(), Some(0x01 | 0x02))
}

/// The exchange of a file, which is text or the bytes of a question.
pub fn exchange(file: &str) -> Result<Exchange, Unreadable> {
    exchange_of(file, &bytes(file)?)
}

/// The exchange of these bytes of a file.
pub fn exchange_of(file: &str, bytes: &[u8]) -> Result<Exchange, Unreadable> {
    if is_question(bytes) {
        return question(file, bytes);
    }
    match std::str::from_utf8(bytes) {
        Ok(source) => text::read(source).map_err(|fault| Unreadable::fault(file, source, &fault)),
        Err(error) => Err(not_text(file, bytes, error.valid_up_to())),
    }
}

/// The exchange of the bytes of a question of either edition.
pub fn question(file: &str, bytes: &[u8]) -> Result<Exchange, Unreadable> {
    let refused = |refusal| Unreadable::refused(file, refusal);
    let mut area = [0; QUESTION_BYTES];
    let plain = match bytes.first() {
        Some(0x02) => {
            let length = exchange::convert_down(bytes, &mut area).map_err(refused)?;
            &area[..length]
        }
        _ => bytes,
    };
    Ok(Exchange::of(Question::new(plain).map_err(refused)?))
}

/// The exchange of a file that must be a question and not text.
pub fn only_question(file: &str, bytes: &[u8]) -> Result<Exchange, Unreadable> {
    let begins = |text: &str| text.starts_with(|first: char| !first.is_control());
    match std::str::from_utf8(bytes).is_ok_and(begins) {
        true => Err(Unreadable::plain(file, "this is text, and no question in bytes")),
        false => question(file, bytes),
    }
}

/// A file that is neither text nor a question, from this byte on.
fn not_text(file: &str, bytes: &[u8], from: usize) -> Unreadable {
    let source = String::from_utf8_lossy(bytes);
    let span = Span { start: from, end: from + 1 };
    let message = format!("the byte {:02X} is no text in UTF-8", bytes[from]);
    let fault = Fault::new(span, message, "from here on it is no text")
        .help("a file is text in UTF-8, or a question, which begins with the byte 01 or 02");
    Unreadable::fault(file, &source, &fault)
}

/// Files to read, and how much was passed over to find them.
#[derive(Debug, Default)]
pub struct Found {
    /// The files, in order.
    pub files: Vec<String>,
    /// What gives no file.
    pub unreadable: Vec<Unreadable>,
    /// Each folder with the number of other files and folders in it.
    pub passed_over: Vec<(String, usize)>,
}

/// The files that are named, and in place of a folder those in it that end in `.exchange`.
pub fn found(named: &[String]) -> Found {
    let mut found = Found::default();
    for name in named {
        match Path::new(name).is_dir() {
            true => found.folder(name),
            false => found.files.push(name.clone()),
        }
    }
    found
}

impl Found {
    fn folder(&mut self, folder: &str) {
        let entries = fs::read_dir(folder)
            .and_then(|entries| entries.map(|entry| Ok(entry?.path())).collect());
        let mut entries: Vec<PathBuf> = match entries {
            Ok(entries) => entries,
            Err(error) => {
                return self.unreadable.push(Unreadable::plain(folder, &error.to_string()));
            }
        };
        entries.sort();
        let all = entries.len();
        entries.retain(|path| path.extension().is_some_and(|ending| ending == ENDING));
        entries.retain(|path| path.is_file());
        if entries.is_empty() {
            let reason = format!("no file in this folder ends in .{ENDING}");
            self.unreadable.push(Unreadable::plain(folder, &reason));
        }
        if entries.len() < all {
            self.passed_over.push((folder.to_string(), all - entries.len()));
        }
        for path in entries {
            match path.to_str() {
                Some(file) => self.files.push(file.to_string()),
                None => {
                    let reason = "its name is no text in UTF-8";
                    self.unreadable.push(Unreadable::plain(&path.to_string_lossy(), reason));
                }
            }
        }
    }
}
