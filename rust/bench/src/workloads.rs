//! The workloads.

use crate::task::{Operation, Relation, Task};
use compare::{Answer, CAPACITY};
use generate::{Draft, Fields, Random, Worked, APPENDIX, EXCHANGES};

/// Tasks that are timed together.
pub struct Workload {
    /// The name on the command line and in the table.
    pub name: &'static str,
    /// What it is.
    pub about: &'static str,
    /// Its tasks.
    pub tasks: Vec<Task>,
    /// Whether it is run only if it is named.
    pub on_request: bool,
}

/// All workloads, those that judge before those that list.
pub fn all() -> Vec<Workload> {
    let appendix = APPENDIX.split_last().expect("the appendix has pairs");
    vec![
        judging("exchanges", "the worked exchanges of document 01", worked(EXCHANGES)),
        judging("appendix", "appendix B.1 of document 000, but P7", worked(appendix.1)),
        judging("appendix-p7", "P7 and P7 of that appendix", worked(&[*appendix.0])),
        judging("random", "300 random questions, capacity 256", random(Relation::Open)),
        judging("late", "the same questions, late", random(Relation::Late)),
        judging("early", "the same questions, early", random(Relation::Early)),
        judging("field-64", "12 components, 6 of them with two states", full(field(6))),
        judging("field-512", "12 components, 9 of them with two states", full(field(9))),
        judging("field-4096", "12 components, each with two states", full(field(12))),
        judging("wide", "37 components, 5 of them with two states", full(wide())),
        judging(
            "unused",
            "the components of field-512, each step loses a restriction",
            full(unused()),
        ),
        judging("blocked", "985 raw steps, of which 6 are not blocked", full(blocked())),
        judging("far-end", "a ten-bit counter: all is alike until it overflows", full(far_end())),
        judging(
            "ladder",
            "a counter: each value is alike if the one below is",
            full(ladder(2, 10, 0)),
        ),
        judging(
            "ladder-wide",
            "a ladder beside 4 components with two states",
            full(ladder(1, 8, 4)),
        ),
        judging(
            "countdown",
            "two counters: each value is alike if the one below is",
            full(countdown()),
        ),
        judging("worst", "80,829 raw steps, all blocked", full(worst(0, WORST))),
        judging("worst-repeated", "143,444 raw steps, all blocked", full(worst(0, REPEATED))),
        judging("worst-16", "69,324 raw steps in each of 16 situations", full(worst(2, WORST))),
        Workload {
            on_request: true,
            ..judging("worst-4096", "53,830 raw steps in each of 4,096", full(worst(6, WORST)))
        },
        listing("list-256", "256 distinct steps", many_steps()),
        listing("list-blocked", "a part of the workload blocked", blocked()),
        listing("list-worst", "a part of the workload worst", worst(0, WORST)),
        listing("list-repeated", "a part of the workload worst-repeated", worst(0, REPEATED)),
        listing("list-surviving", "142,688 raw silent steps, 182 of them distinct", surviving()),
        listing("list-matched", "132,678 raw silent steps beneath matches", worst(0, MATCHED)),
        listing("list-matches", "16,384 raw silent steps, 64 distinct", different_matches()),
        listing("list-unmet", "48,400 raw silent steps beneath a match that fails", unmet()),
        listing("list-equated", "16,384 raw silent steps beneath a match, 64 distinct", equated()),
        listing("list-chained", "8,100 raw silent steps beneath matches, 81 distinct", chained()),
        listing(
            "list-conditions",
            "8,100 raw silent steps beneath matches, few distinct",
            conditions(),
        ),
        listing("list-alike", "1,452 raw silent steps, 121 distinct", alike()),
    ]
}

fn judging(name: &'static str, about: &'static str, tasks: Vec<Task>) -> Workload {
    Workload { name, about, tasks, on_request: false }
}

fn listing(name: &'static str, about: &'static str, fields: Fields) -> Workload {
    let task = Task { question: fields.bytes(), operation: Operation::List { new_name: 15 } };
    Workload { name, about, tasks: vec![task], on_request: false }
}

/// Judging the question with the greatest capacity.
fn full(fields: Fields) -> Vec<Task> {
    let operation = Operation::Judge { relation: Relation::Open, capacity: CAPACITY };
    vec![Task { question: fields.bytes(), operation }]
}

fn worked(questions: &[Worked]) -> Vec<Task> {
    let task = |worked: &Worked| {
        let operation = Operation::Judge { relation: Relation::Open, capacity: worked.capacity };
        Task { question: worked.bytes(), operation }
    };
    questions.iter().map(task).collect()
}

fn random(relation: Relation) -> Vec<Task> {
    let question = |seed| {
        let random = &mut Random::new(seed);
        let draft = match random.below(4) {
            0 => Draft::unrelated(random),
            1 => Draft::busy(random),
            _ => Draft::near_miss(random),
        };
        draft.bytes()
    };
    let operation = Operation::Judge { relation, capacity: 256 };
    (0..300).map(|seed| Task { question: question(seed), operation }).collect()
}

/// A definition: its arity and its body.
type Definition = (u8, Vec<u8>);

fn definition(arity: u8, body: &[u8]) -> Definition {
    (arity, body.to_vec())
}

fn question(definitions: Vec<Definition>, first: Vec<u8>, second: Vec<u8>) -> Fields {
    Fields { definitions, first, second, apart: vec![] }
}

fn call(k: u8, names: &[u8]) -> Vec<u8> {
    [&[0x09, k], names].concat()
}

/// Components in parallel, grouped to the left: a walk passes all before it comes to the last.
fn grouped_left(components: &[Vec<u8>]) -> Vec<u8> {
    [vec![0x07; components.len() - 1], components.concat()].concat()
}

/// Components in parallel, grouped to the right.
fn grouped_right(components: &[Vec<u8>]) -> Vec<u8> {
    let (last, others) = components.split_last().expect("there are components");
    let mut part: Vec<u8> = others.iter().flat_map(|one| [&[0x07], &one[..]].concat()).collect();
    part.extend(last);
    part
}

/// Beneath this many restrictions.
fn restricted(count: usize, part: Vec<u8>) -> Vec<u8> {
    [vec![0x08; count], part].concat()
}

/// An apart list of all pairs of these names.
fn all_apart(names: std::ops::Range<u8>) -> Vec<u8> {
    let end = names.end;
    names.flat_map(|a| (a + 1..end).flat_map(move |b| [a, b])).collect()
}

fn turned(components: &[Vec<u8>]) -> Vec<Vec<u8>> {
    components.iter().rev().cloned().collect()
}

/// Two definitions, with these numbers, of a component with two states: it puts out its name and
/// goes over to the other.
fn two_states(k: u8, other: u8) -> [Definition; 2] {
    let state = |next: u8| definition(1, &[0x03, 0x80, 0x80, 0x09, next, 0x80]);
    [state(other), state(k)]
}

/// Twelve components that put out a name each, in another order on the other side. So many of them
/// have two states; the others have one. Every situation has the same number of steps.
fn field(with_two_states: u8) -> Fields {
    let mut definitions = two_states(0, 1).to_vec();
    definitions.push(definition(1, &[0x03, 0x80, 0x80, 0x09, 0x02, 0x80]));
    let component = |name: u8| call(if name < with_two_states { 0 } else { 2 }, &[name]);
    let components: Vec<Vec<u8>> = (0..12).map(component).collect();
    question(definitions, grouped_right(&components), grouped_right(&turned(&components)))
}

/// The same with nine of two states, where each component has a restricted name. Its step passes on
/// a new one in place of it, so that every result has a restriction that binds nothing.
fn unused() -> Fields {
    let passes_on = |next: u8| definition(2, &[0x03, 0x81, 0x81, 0x08, 0x09, next, 0x82, 0x80]);
    let definitions = vec![passes_on(1), passes_on(0), passes_on(2)];
    let component = |name: u8| restricted(1, call(if name < 9 { 0 } else { 2 }, &[name, 0x80]));
    let components: Vec<Vec<u8>> = (0..12).map(component).collect();
    question(definitions, grouped_right(&components), grouped_right(&turned(&components)))
}

/// Definitions, with these numbers, of components that only make silent steps: the first two are
/// the states of one, the third has one state.
fn silent_states(first: u8) -> [Definition; 3] {
    [first + 1, first, first + 2].map(|next| definition(0, &[0x01, 0x09, next]))
}

/// So many silent components with two states and one with one.
fn silent_components(first: u8, with_two_states: usize) -> Vec<Vec<u8>> {
    let mut components = vec![call(first, &[]); with_two_states];
    components.push(call(first + 2, &[]));
    components
}

/// 37 components, as many as fit, which all make silent steps. Five of them have two states.
fn wide() -> Fields {
    let mut components = silent_components(0, 5);
    components.resize(37, call(2, &[]));
    let definitions = silent_states(0).to_vec();
    question(definitions, grouped_left(&components), grouped_right(&turned(&components)))
}

/// The numbers of the definitions without a step that [`continuations`] calls.
const IDLE: std::ops::Range<u8> = 6..16;

/// The definitions, followed by those without a step.
fn with_idle(mut definitions: Vec<Definition>) -> Vec<Definition> {
    definitions.resize(IDLE.end.into(), definition(0, &[0x00]));
    definitions
}

/// Different terms without restrictions, the shortest first.
fn continuations() -> impl Iterator<Item = Vec<u8>> {
    let two: Vec<Vec<u8>> =
        std::iter::once(vec![0x01, 0x00]).chain(IDLE.map(|k| call(k, &[]))).collect();
    let three: Vec<Vec<u8>> = two.iter().map(|two| prefixed(&[0x01], two)).collect();
    std::iter::once(vec![0x00]).chain(two).chain(three)
}

fn prefixed(prefix: &[u8], term: &[u8]) -> Vec<u8> {
    [prefix, term].concat()
}

/// A choice of these branches.
fn choice(branches: &[Vec<u8>]) -> Vec<u8> {
    [vec![0x06; branches.len() - 1], branches.concat()].concat()
}

/// A body that offers the prefix so many times, with different continuations.
fn offering(prefix: &[u8], count: usize) -> Definition {
    let branches: Vec<Vec<u8>> =
        continuations().take(count).map(|term| prefixed(prefix, &term)).collect();
    definition(1, &choice(&branches))
}

const INPUT: &[u8] = &[0x02, 0x80];
const OUTPUT: &[u8] = &[0x03, 0x80, 0x80];
const NEW_OUTPUT: &[u8] = &[0x04, 0x80];

/// Three calls that offer 11 inputs each on one restricted name, two that offer 11 outputs each on
/// another, and six components with two states each. Of 33 + 28 visible steps and 33 × 28
/// meetings only those of the six are not blocked.
fn blocked() -> Fields {
    let mut definitions = vec![offering(INPUT, 11), offering(OUTPUT, 11)];
    definitions.extend(two_states(2, 3));
    let mut components = vec![call(0, &[0x80]); 3];
    components.extend(vec![call(1, &[0x81]); 2]);
    components.extend((0..6).map(|name| call(2, &[name])));
    let first = restricted(2, grouped_left(&components));
    let second = restricted(2, grouped_left(&turned(&components)));
    question(with_idle(definitions), first, second)
}

/// A counter of ten bits that counts by silent steps alone, one after another, and puts out a name
/// when it overflows; that name is all in which the sides differ.
///
/// Bit i listens on its own channel. Told to count, a bit at 0 goes to 1 and confirms on the same
/// channel; a bit at 1 first tells the next bit and waits for that one to confirm, and then goes
/// to 0 and confirms. The clock tells bit 0. Each channel has two users only, so there is never
/// more than one step.
fn far_end() -> Fields {
    const BITS: u8 = 10;
    // Parameters are the bit's own channel, 81, and that of the next, 80.
    let definitions = vec![
        definition(2, &[0x02, 0x81, 0x09, 0x01, 0x82, 0x81]), // 0: at 0, told, then 1
        definition(2, &[0x03, 0x81, 0x81, 0x09, 0x02, 0x81, 0x80]), // 1: confirms, then 2
        definition(2, &[0x02, 0x81, 0x09, 0x03, 0x82, 0x81]), // 2: at 1, told, then 3
        definition(2, &[0x03, 0x80, 0x80, 0x09, 0x04, 0x81, 0x80]), // 3: tells the next, then 4
        definition(2, &[0x02, 0x80, 0x09, 0x05, 0x82, 0x81]), // 4: the next confirms, then 5
        definition(2, &[0x03, 0x81, 0x81, 0x09, 0x00, 0x81, 0x80]), // 5: confirms, then 0
        definition(1, &[0x03, 0x80, 0x80, 0x09, 0x07, 0x80]), // 6: the clock tells, then 7
        definition(1, &[0x02, 0x80, 0x09, 0x06, 0x81]),       // 7: bit 0 confirms, then 6
    ];
    let side = |overflow: u8| {
        let mut components = vec![call(6, &[0x80])];
        components.extend((1..BITS).map(|bit| call(0, &[0x7F + bit, 0x80 + bit])));
        components.push(call(0, &[0x7F + BITS, overflow]));
        restricted(BITS.into(), grouped_right(&components))
    };
    question(definitions, side(0), side(1))
}

/// A counter that can be told to count up or down, and that puts out a name while its last digit is
/// 0. Both sides begin alike: the last digit chooses by a silent step which of two names that is,
/// and starts the first digit. If both choose the same, all is alike. If they do not, the
/// situations with a last digit of 0 differ, and each other one only because the one below does,
/// which was found before it.
///
/// An input on its own channel tells a digit to count up and an output to count down. At its
/// highest value a digit that is told to count up first tells the next to do so, and at 0 one that
/// is told to count down first tells the next to do so. There are so many digits with `radix` values
/// before the last; components with two states beside them make each situation rely on more others.
fn ladder(digits: u8, radix: u8, components_beside: u8) -> Fields {
    const LAST_RADIX: u8 = 6;
    // Parameters are the digit's own channel, 81, and that of the next, 80.
    let up = |next: u8| vec![0x02, 0x81, 0x09, next, 0x82, 0x81];
    let down = |next: u8| vec![0x03, 0x81, 0x81, 0x09, next, 0x81, 0x80];
    let digit = |value: u8| {
        let up = match value + 1 {
            next if next == radix => vec![0x02, 0x81, 0x03, 0x81, 0x81, 0x09, 0, 0x82, 0x81],
            next => up(next),
        };
        let down = match value {
            0 => vec![0x03, 0x81, 0x81, 0x02, 0x80, 0x09, radix - 1, 0x82, 0x81],
            value => down(value - 1),
        };
        definition(2, &choice(&[up, down]))
    };
    // Parameters of the last digit are its own channel, 81, and the name that it puts out, 80.
    let last_digit = |value: u8| {
        let number = radix + value;
        let body = match value {
            0 => choice(&[up(number + 1), vec![0x03, 0x80, 0x80, 0x09, number, 0x81, 0x80]]),
            value if value + 1 == LAST_RADIX => down(number - 1),
            _ => choice(&[up(number + 1), down(number - 1)]),
        };
        definition(2, &body)
    };
    let mut definitions: Vec<Definition> =
        (0..radix).map(digit).chain((0..LAST_RADIX).map(last_digit)).collect();
    let first_state = radix + LAST_RADIX;
    if components_beside > 0 {
        definitions.extend(two_states(first_state, first_state + 1));
    }
    // Restricted are the channel of the start, 80, and those of the digits behind the first.
    let chosen = |name: u8| vec![0x01, 0x03, 0x80, 0x80, 0x09, radix, 0x80 + digits, name];
    let mut components = vec![vec![0x02, 0x80, 0x09, 0x00, 0x02, 0x82]];
    components.extend((1..digits).map(|place| call(0, &[0x80 + place, 0x81 + place])));
    components.push(choice(&[chosen(0), chosen(1)]));
    let names = 0..3 + components_beside;
    components.extend((3..names.end).map(|name| call(first_state, &[name])));
    let part = restricted((digits + 1).into(), grouped_right(&components));
    Fields { apart: all_apart(names), ..question(definitions, part.clone(), part) }
}

/// Two counters of sixteen values that can be told to count up or down, without digits. Each puts
/// out a name while it is 0, and one of them first chooses by a silent step which of two that is. If
/// both sides choose the same, all is alike. If they do not, each situation differs because of one
/// that was taken up before it, and that one is a single step away.
fn countdown() -> Fields {
    const VALUES: u8 = 16;
    // Parameters are the channel on which the counter is told to count, 81, and the name that it
    // puts out, 80.
    let up = |next: u8| vec![0x02, 0x81, 0x09, next, 0x82, 0x81];
    let down = |next: u8| vec![0x03, 0x81, 0x81, 0x09, next, 0x81, 0x80];
    let counter = |value: u8| {
        let body = match value {
            0 => choice(&[up(1), vec![0x03, 0x80, 0x80, 0x09, 0, 0x81, 0x80]]),
            value if value + 1 == VALUES => down(value - 1),
            value => choice(&[up(value + 1), down(value - 1)]),
        };
        definition(2, &body)
    };
    let chosen = |name: u8| [&[0x01], &call(0, &[2, name])[..]].concat();
    let part = grouped_right(&[choice(&[chosen(0), chosen(1)]), call(0, &[3, 4])]);
    let definitions = (0..VALUES).map(counter).collect();
    Fields { apart: all_apart(0..5), ..question(definitions, part.clone(), part) }
}

/// How many inputs and new-name outputs a body can offer within its 112 bytes: with different
/// continuations, or with inaction after each.
const WORST: fn(&[u8]) -> Definition = |prefix| offering(prefix, 21);
const REPEATED: fn(&[u8]) -> Definition =
    |prefix| definition(1, &choice(&vec![prefixed(prefix, &[0x00]); 28]));

/// The most steps that a walk can be made to go through and that come to nothing: as many calls as
/// fit, half of which offer inputs on one restricted name and half outputs on another. Silent
/// components, so many of them with two states, make a field of situations that are all alike.
fn worst(with_two_states: usize, body: fn(&[u8]) -> Definition) -> Fields {
    let mut definitions = vec![body(INPUT), body(NEW_OUTPUT)];
    definitions.extend(silent_states(2));
    let mut components = match with_two_states {
        0 => vec![],
        count => silent_components(2, count),
    };
    let room = 112 - 2 + 1 - 3 * components.len();
    let calls = room / 4;
    components.extend(vec![call(0, &[0x80]); calls.div_ceil(2)]);
    components.extend(vec![call(1, &[0x81]); calls / 2]);
    let first = restricted(2, grouped_left(&components));
    let second = restricted(2, grouped_left(&turned(&components)));
    question(with_idle(definitions), first, second)
}

/// The same beneath a match of a name with itself.
const MATCHED: fn(&[u8]) -> Definition = |prefix| {
    let branches = choice(&vec![prefixed(prefix, &[0x00]); 27]);
    definition(1, &prefixed(&[0x05, 0x80, 0x80], &branches))
};

/// A body that offers the prefix beneath each match of two of its four names.
fn beneath_matches(prefix: &[u8]) -> Definition {
    let pairs = (0x80..0x84).flat_map(|a| (0x80..0x84).map(move |b| [0x05, a, b]));
    let branches: Vec<Vec<u8>> = pairs.map(|pair| [&pair, prefix, &[0x00]].concat()).collect();
    definition(4, &choice(&branches))
}

/// Eight calls that offer inputs and eight that offer outputs, all on one restricted name and each
/// beneath 16 different matches of that name with itself.
fn different_matches() -> Fields {
    let definitions = vec![beneath_matches(INPUT), beneath_matches(NEW_OUTPUT)];
    let calls = |k: u8| vec![call(k, &[0x80; 4]); 8];
    let part = restricted(1, grouped_left(&[calls(0), calls(1)].concat()));
    question(definitions, part, vec![0x00])
}

/// Eleven calls that offer 20 inputs and eleven that offer 20 outputs, all on one restricted name
/// and beneath a match of that name with another restricted one.
fn unmet() -> Fields {
    let body = |prefix: &[u8]| {
        let branches: Vec<Vec<u8>> =
            continuations().take(20).map(|term| prefixed(prefix, &term)).collect();
        definition(2, &prefixed(&[0x05, 0x80, 0x81], &choice(&branches)))
    };
    let definitions = with_idle(vec![body(INPUT), body(NEW_OUTPUT)]);
    let calls = |k: u8| vec![call(k, &[0x80, 0x81]); 11];
    let part = restricted(2, grouped_left(&[calls(0), calls(1)].concat()));
    question(definitions, part, vec![0x00])
}

/// Eight calls that offer inputs and eight that offer outputs, all on one free name and each beneath
/// 16 matches of that name with another: one condition and one channel, by different parameters.
fn equated() -> Fields {
    let body = |kind: u8| {
        let pairs = [0x80, 0x81].iter().flat_map(|&a| [0x82, 0x83].map(|b| [a, b]));
        let matches = pairs.flat_map(|[a, b]| [[0x05, a, b], [0x05, b, a]]);
        let branches: Vec<Vec<u8>> = matches
            .flat_map(|pair| [0x80, 0x81].map(|name| [&pair[..], &[kind, name, 0x00]].concat()))
            .collect();
        definition(4, &choice(&branches))
    };
    let calls = |k: u8| vec![call(k, &[0x00, 0x00, 0x01, 0x01]); 8];
    let part = grouped_left(&[calls(0), calls(1)].concat());
    question(vec![body(INPUT[0]), body(NEW_OUTPUT[0])], part, vec![0x00])
}

/// Nine calls that offer inputs and nine that offer outputs, all on one free name and each beneath
/// ten different chains of matches that make the same three names one.
fn chained() -> Fields {
    let [ab, bc, ca] = [[0x05, 0x82, 0x81], [0x05, 0x81, 0x80], [0x05, 0x80, 0x82]];
    let two =
        [[ab, bc], [bc, ab], [ab, ca], [ca, ab], [bc, ca], [ca, bc]].map(|chain| chain.concat());
    let three =
        [[ab, bc, ca], [ab, ca, bc], [bc, ab, ca], [bc, ca, ab]].map(|chain| chain.concat());
    let body = |kind: u8| {
        let chains = two.iter().chain(&three);
        let branches: Vec<Vec<u8>> =
            chains.map(|chain| prefixed(chain, &[kind, 0x82, 0x00])).collect();
        definition(3, &choice(&branches))
    };
    let calls = |k: u8| vec![call(k, &[0, 1, 2]); 9];
    let part = grouped_left(&[calls(0), calls(1)].concat());
    question(vec![body(INPUT[0]), body(NEW_OUTPUT[0])], part, vec![0x00])
}

/// Nine calls that offer inputs and nine that offer outputs, in ten branches with different
/// conditions or channels each. Every branch goes on as its call, so that most results are equal.
fn conditions() -> Fields {
    let [a, b, c] = [0x82, 0x81, 0x80];
    let [ab, bc, ca] = [[0x05, a, b], [0x05, b, c], [0x05, c, a]];
    let body = |k: u8, kind: u8| {
        let again = call(k, &[a + 1, b + 1, c + 1]);
        let beneath =
            |matches: &[u8], channel: u8| prefixed(matches, &prefixed(&[kind, channel], &again));
        let on_each = |pair: [u8; 3]| [a, b, c].map(|channel| beneath(&pair, channel));
        let mut branches = [ab, bc, ca].map(on_each).concat();
        branches.push(beneath(&[ab, bc].concat(), a));
        definition(3, &choice(&branches))
    };
    let calls = |k: u8| vec![call(k, &[0, 1, 2]); 9];
    let part = grouped_left(&[calls(0), calls(1)].concat());
    question(vec![body(0, INPUT[0]), body(1, NEW_OUTPUT[0])], part, vec![0x00])
}

/// Eleven calls that receive a name in 12 branches and go on with calls that differ in which of
/// four names is the one received, beside eleven that send the name that stands for the others:
/// different branches, equal results.
fn alike() -> Fields {
    let branch = |number: u8| {
        let name = |place: u8| 0x80 + (number >> place & 1);
        prefixed(&[0x02, 0x81], &call(2, &[0, 1, 2, 3].map(name)))
    };
    let inputs: Vec<Vec<u8>> = (0..12).map(branch).collect();
    let definitions = vec![
        definition(2, &choice(&inputs)),
        definition(2, &[0x03, 0x81, 0x80, 0x00]),
        definition(4, &[0x00]),
    ];
    let calls = |k: u8| vec![call(k, &[0x80, 0x00]); 11];
    let part = restricted(1, grouped_left(&[calls(0), calls(1)].concat()));
    question(definitions, part, vec![0x00])
}

/// The same as repeated on one restricted name: all meetings survive, and many are equal.
fn surviving() -> Fields {
    let mut fields = worst(0, REPEATED);
    for part in [&mut fields.first, &mut fields.second] {
        part.remove(0);
        part.iter_mut().filter(|byte| **byte == 0x81).for_each(|byte| *byte = 0x80);
    }
    fields
}

/// 20 inputs beside 11 outputs, which can all meet, beside 5 silent steps.
fn many_steps() -> Fields {
    let definitions = with_idle(vec![offering(INPUT, 10), offering(OUTPUT, 11)]);
    let silent: Vec<Vec<u8>> =
        continuations().take(5).map(|term| prefixed(&[0x01], &term)).collect();
    let components = [call(0, &[0]), call(0, &[0]), call(1, &[0]), choice(&silent)];
    question(definitions, grouped_left(&components), vec![0x00])
}

/// Panics if a task is refused: a workload is then not what it should be.
pub fn assert_accepted(workload: &Workload) {
    for task in &workload.tasks {
        let answer = compare::check(&task.question);
        assert_eq!(answer, Answer::Result(0), "{}", workload.name);
    }
}
