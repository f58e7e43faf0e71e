//! The reader: what it says of wrong files, and that nothing makes it panic.

use desk::input::exchange_of;
use desk::model::Exchange;
use desk::text;
use exchange::Question;
use generate::{each_seed, Random};

/// The place and message of the fault in a source.
fn fault(source: &str) -> String {
    exchange_of("f", source.as_bytes()).expect_err(source).line
}

#[test]
fn an_exchange_and_its_bytes() {
    let source = "# newcomer rule\n\
                  Confirm(home, reply) = reply<home>.Confirm(home, reply)\n\
                  old = entry(x).0 | office<card>.0\n\
                  new = entry(x).office<card>.0 + (new y)[y=card]office<new z>.Confirm(z,entry)\n\
                  apart: entry office, card office\n";
    let exchange = text::read(source).expect("an exchange");
    assert_eq!(exchange.names, ["entry", "office", "card"]);
    assert_eq!(exchange.apart, [(0, 1), (2, 1)]);
    let body = [3, 0x80, 0x81, 9, 0, 0x81, 0x80];
    assert_eq!(exchange.definitions[0].body.bytes(), body);
    assert_eq!(exchange.parts[0].bytes(), [7, 2, 0, 0, 3, 1, 2, 0]);
    let second = [6, 2, 0, 3, 1, 2, 0, 8, 5, 0x80, 2, 4, 1, 9, 0, 0x80, 0];
    assert_eq!(exchange.parts[1].bytes(), second);
}

#[test]
fn lines_may_go_on_and_names_may_be_ordered() {
    let source =
        "names: c b a\nold = a<b>.0\n  + b<c>.0\nK = 0\nnew = K() | (K)\napart: a b c,\n a c";
    let exchange = text::read(source).expect("an exchange");
    assert_eq!(exchange.parts[0].bytes(), [6, 3, 2, 1, 0, 3, 1, 0, 0]);
    assert_eq!(exchange.apart, [(2, 1), (2, 0), (1, 0), (2, 0)]);
}

#[test]
fn faults_are_told_with_their_place() {
    let part = |term: &str| fault(&format!("old = {term}\nnew = 0\n"));
    assert_eq!(part("a(x) | 0"), "f:1:12: expected `.`, found `|`");
    assert_eq!(part("a"), "f:1:8: expected `(` or `<`, found the end of the line");
    assert_eq!(part("a(X).0"), "f:1:9: expected a name, found `X`");
    assert_eq!(part("(a(x).0"), "f:1:14: expected `)`, found the end of the line");
    assert_eq!(part("[a=b 0"), "f:1:12: expected `]`, found `0`");
    assert_eq!(part("0 0"), "f:1:9: expected `+`, `|` or the end of the line, found `0`");
    assert_eq!(
        part("new x.0"),
        "f:1:7: expected `0`, a prefix, a match, a restriction, a call or `(`, found `new`"
    );
    assert_eq!(part("a<tau>.0"), "f:1:9: expected a name, found `tau`, which has a meaning");
    assert_eq!(fault("old = 0"), "f:1:8: an exchange has two parts, and there is one");
    assert_eq!(fault(""), "f:1:1: an exchange has two parts, and there is none");
    assert_eq!(
        fault("a = 0\nb = 0\nc = 0"),
        "f:3:1: an exchange has two parts, and this is a third"
    );
    assert_eq!(fault("a = 0\na = 0"), "f:2:1: both parts are called `a`");
    assert_eq!(
        fault("a = 0\nb = 0\napart: a\n"),
        "f:3:9: expected another name, found the end of the file"
    );
    assert_eq!(fault("K(a) = 0\nK = 0"), "f:2:1: `K` is defined twice");
    assert_eq!(fault("K(a, a) = 0"), "f:1:6: two parameters are called `a`");
    assert_eq!(fault("K(a) = 0\nold = K(b, c)"), "f:2:7: `K` takes 1 name, found 2 names");
    assert_eq!(fault("K(a, = 0"), "f:1:6: expected a name, found `=`");
    assert_eq!(fault("old = 0\nK(a)"), "f:2:5: expected `=`, found the end of the file");
    assert_eq!(fault("K(a) = 0\nold = K(b,)"), "f:2:11: expected a name, found `)`");
    let one_line = "f:1:9: expected `+`, `|` or the end of the line, found `new`";
    assert_eq!(fault("old = 0 new = 0"), one_line);
    assert_eq!(
        fault("old = a(x).0\nnames: a"),
        "f:2:1: the list of names comes after a name was used"
    );
    assert_eq!(fault("old = éé\u{7}"), "f:1:9: no exchange has the character '\\u{7}'");
}

/// All that is told of a fault.
fn full(source: &str) -> String {
    exchange_of("f", source.as_bytes()).expect_err(source).full
}

#[test]
fn faults_come_with_advice() {
    let told = |source: &str, note: &str| {
        let full = full(source);
        assert!(full.lines().any(|line| line.ends_with(note)), "{full}");
    };
    told("old = tau.\n (a(x).0\nnew = 0", "= note: it was opened at f:2:2");
    told("K = 0\nK = 0", "= note: the first is at f:1:1");
    told("K(a) = 0\nold = K", "= note: it is defined at f:1:1");
    told("old = τ.0", "= help: a silent step is written `tau.`");
    told("old = (νx)a<x>.0", "= help: a restriction is written `(new x)P`");
    told("Confirm = 0\nold = Confrim\nnew = 0", "= help: did you mean `Confirm`?");
}

#[test]
fn broken_rules_are_told_with_their_place() {
    let told = |source: &str, place: &str, rule: &str| {
        let full = full(source);
        assert!(full.contains(&format!("--> f:{place}\n")), "{full}");
        assert!(full.contains(&format!("= rule {rule}:")), "{full}");
    };
    let many = |count: usize, line: &dyn Fn(usize) -> String| {
        (0..count).map(line).collect::<Vec<_>>().join("\n")
    };
    told(&many(17, &|k| format!("K{k} = 0")), "17:1", "5");
    told("K(a,b,c,d,e,f,g,h,i) = 0\nold = 0\nnew = 0", "1:19", "5");
    told(&format!("old = {}0\nnew = 0", "tau.".repeat(112)), "1:455", "6");
    told(&format!("old = 0{}\nnew = 0", " + 0".repeat(100_000)), "1:231", "6");
    told("Confirm = 0\nold = tau.Confrim\nnew = 0", "2:11", "8");
    let names = |count: usize| (0..count).map(|k| format!("n{k}(x).")).collect::<String>();
    told(&format!("old = {}0\nnew = 0", names(17)), "1:109", "9");
    told("K(a) = a<b>.0\nold = 0\nnew = 0", "1:10", "9");
    told("K(a) = 0 | 0\nold = 0\nnew = 0", "1:10", "10");
    told("old = tau.(0 | 0)\nnew = 0", "1:14", "10");
    told("K(a) = [a=a]K(a)\nold = 0\nnew = 0", "1:13", "11");
    told("old = 0\nnew = 0\napart: a b, c c", "3:13", "12");
    told(&format!("old = 0\nnew = 0\napart: a b{}", ", a b".repeat(120)), "3:608", "12");
}

#[test]
fn the_limits_themselves_pass() {
    let names: String = (0..16).map(|k| format!("n{k}(x).")).collect();
    let definitions: String = (0..16).map(|k| format!("K{k}(a,b,c,d,e,f,g,h) = 0\n")).collect();
    let pairs = ["n0 n1"; 120].join(", ");
    let source =
        format!("{definitions}old = {names}0\nnew = {}0\napart: {pairs}", "tau.".repeat(111));
    let exchange = text::read(&source).unwrap_or_else(|fault| panic!("{}", fault.message));
    assert_eq!(exchange.parts[1].bytes().len(), 112);
}

#[test]
fn nesting_and_length_without_end() {
    for piece in ["(", "a(x).(", "[a=b](", "(new x)(", "tau.", "0 + (", "K(", "a<", "#", "\n"] {
        let source = format!("old = {}", piece.repeat(200_000 / piece.len()));
        assert!(exchange_of("f", source.as_bytes()).is_err());
    }
    let nested =
        |depth: usize| format!("old = {}0{}\nnew = 0", "(".repeat(depth), ")".repeat(depth));
    assert!(exchange_of("f", nested(159).as_bytes()).is_ok());
    assert_eq!(fault(&nested(160)), "f:1:167: this is nested more than 160 deep");
}

/// Half of the stack that a thread has is ample for the deepest nesting.
#[test]
fn the_deepest_nesting_fits_a_small_stack() {
    let source = format!("old = {}0{}\nnew = 0", "(tau.".repeat(80), ")".repeat(80));
    let read = move || exchange_of("f", source.as_bytes()).expect_err("160 deep and more").line;
    let thread = std::thread::Builder::new().stack_size(1 << 20).spawn(read);
    let line = thread.expect("a thread can be started").join().expect("it returns");
    assert!(line.ends_with("this is nested more than 160 deep"), "{line}");
}

#[test]
fn what_is_no_text() {
    let error = exchange_of("f", b"old = 0\nnew = \xFF0").expect_err("not UTF-8");
    assert_eq!(error.line, "f:2:7: the byte FF is no text in UTF-8");
    let error = exchange_of("f", &[1, 0, 0]).expect_err("no question");
    assert!(error.line.starts_with("f: refused by rule 4: "));
    assert!(exchange_of("f", b"\xEF\xBB\xBFold = 0\r\nnew = 0\r\n").is_ok());
}

/// The text of a random question, with words for its names.
fn sound(random: &mut Random) -> Vec<u8> {
    let question = match random.below(3) {
        0 => generate::busy(random),
        1 => generate::near_miss(random),
        _ => generate::unrelated(random),
    };
    let question = Question::new(&question).expect("the question is accepted");
    text::file(&Exchange::of(question)).into_bytes()
}

/// Pieces of files, and bytes that belong in none.
const PIECES: [&[u8]; 32] = [
    b"(",
    b")",
    b"<",
    b">",
    b"[",
    b"]",
    b"=",
    b"+",
    b"|",
    b".",
    b",",
    b":",
    b"0",
    b" ",
    b"\n",
    b"#",
    b"new ",
    b"tau.",
    b"a",
    b"b(x).",
    b"a<b>.",
    b"[a=b]",
    b"(new x)",
    b"K0(",
    b"K0(a) = ",
    b"old = ",
    b"apart: ",
    b"names: ",
    b"\xFF",
    b"\xE2\x82",
    b"\xC3\xBC",
    b"\x00",
];

/// Puts something into the file, takes something out, or doubles a piece of it.
fn damage(random: &mut Random, file: &mut Vec<u8>) {
    let at = random.below(file.len() + 1);
    let end = (at + random.below(12)).min(file.len());
    match random.below(6) {
        0 => file.truncate(at),
        1 => drop(file.drain(at..end)),
        2 => {
            let piece = file[at..end].to_vec();
            let to = random.below(file.len() + 1);
            file.splice(to..to, piece);
        }
        3 => file.insert(at, random.byte()),
        _ => {
            let piece = *random.pick(&PIECES);
            let piece = piece.repeat(if random.chance(2) { 400 } else { 1 });
            file.splice(at..at, piece);
        }
    }
}

/// A sound file with some damage, or nothing but pieces.
fn damaged(random: &mut Random) -> Vec<u8> {
    if random.chance(20) {
        return (0..random.below(40)).flat_map(|_| *random.pick(&PIECES)).copied().collect();
    }
    let mut file = sound(random);
    for _ in 0..random.between(1, 4) {
        damage(random, &mut file);
    }
    file
}

#[test]
fn damaged_files() {
    let (mut read, mut wrong) = (0_u64, 0_u64);
    each_seed(10_000, |random| match exchange_of("f", &damaged(random)) {
        Ok(exchange) => {
            read += 1;
            let again = text::read(&text::file(&exchange)).expect("what is printed is read");
            assert_eq!(again.bytes(), exchange.bytes());
        }
        Err(unreadable) => {
            wrong += 1;
            assert!(unreadable.line.starts_with("f:") && unreadable.full.starts_with("error:"));
            assert!(!unreadable.line.contains("the library refuses this exchange"));
        }
    });
    println!("{read} read, {wrong} told what is wrong");
    assert!(read > 100 && wrong > 100);
}
