//! The field and the verdict once more, word for word from "The field and the verdict": sets of
//! coded parts, steps as they are listed, and rounds of striking out over the whole field.

mod common;

use generate::{each_seed, Draft, Fields, APPENDIX, EXCHANGES, UNUSED};
use reference::Answer::{self, Different, Same, Unsettled};
use reference::{listed_steps, Listed};
use std::collections::{BTreeMap, BTreeSet};

type Pairs = BTreeSet<(u8, u8)>;
type Situation = (Vec<u8>, Vec<u8>, Pairs);

/// Why a situation has no demands.
enum Stop {
    /// It is past a limit.
    Limit,
    /// All names are free in one part, which cannot be listed then: the question is given up.
    Unlisted,
}

/// The definitions of a question: its bytes before the parts, and the arities.
struct Definitions {
    front: Vec<u8>,
    arities: Vec<u8>,
}

impl Definitions {
    fn of(fields: &Fields) -> Definitions {
        let arities: Vec<u8> = fields.definitions.iter().map(|definition| definition.0).collect();
        let mut front = vec![0x01, arities.len() as u8];
        front.extend(&arities);
        for (_, body) in &fields.definitions {
            push(body, &mut front);
        }
        Definitions { front, arities }
    }

    /// The steps of a part with the new name, or else with one that is not free in it.
    fn steps(&self, part: &[u8], new: Option<u8>) -> Result<Vec<Listed>, Stop> {
        let free = self.free(part);
        let other = || (0..16).find(|name| !free.contains(name));
        let new = new.or_else(other).ok_or(Stop::Unlisted)?;
        let mut question = self.front.clone();
        push(part, &mut question);
        push(&[0x00], &mut question);
        push(&[], &mut question);
        match listed_steps(&question, 1, new.into()) {
            Ok(steps) => {
                let is_tidied = |step: &Listed| self.tidied(&step.result) == step.result;
                assert!(steps.iter().all(is_tidied), "{steps:02x?}");
                Ok(steps)
            }
            Err(answer) => {
                assert_eq!(answer, Unsettled);
                Err(Stop::Limit)
            }
        }
    }

    /// The places of the name bytes of a coded term.
    fn name_places(&self, term: &[u8]) -> Vec<usize> {
        let mut places = Vec::new();
        let mut at = 0;
        while at < term.len() {
            let (skipped, names) = match term[at] {
                2 | 4 => (1, 1),
                3 | 5 => (1, 2),
                9 => (2, usize::from(self.arities[usize::from(term[at + 1])])),
                _ => (1, 0),
            };
            at += skipped;
            places.extend(at..at + names);
            at += names;
        }
        places
    }

    fn rewritten(&self, term: &[u8], classes: &[u8; 16]) -> Vec<u8> {
        let mut changed = term.to_vec();
        for place in self.name_places(term) {
            if changed[place] < 0x80 {
                changed[place] = classes[usize::from(changed[place])];
            }
        }
        changed
    }

    fn free(&self, term: &[u8]) -> BTreeSet<u8> {
        let names = self.name_places(term).into_iter().map(|place| term[place]);
        names.filter(|&name| name < 0x80).collect()
    }

    fn tidied(&self, part: &[u8]) -> Vec<u8> {
        common::tidied(part, &self.arities)
    }

    fn situation(&self, first: Vec<u8>, second: Vec<u8>, apart: &Pairs) -> Situation {
        let free: BTreeSet<u8> = &self.free(&first) | &self.free(&second);
        let both = |pair: &&(u8, u8)| free.contains(&pair.0) && free.contains(&pair.1);
        let apart = apart.iter().filter(both).copied().collect();
        (first, second, apart)
    }

    /// For each permitted step of either side the situations of its answers.
    fn demands(&self, at: &Situation) -> Result<Vec<BTreeSet<Situation>>, Stop> {
        let (first, second, apart) = at;
        let free = &self.free(first) | &self.free(second);
        let new = (0..16).find(|name| !free.contains(name));
        let (left, right) = (self.steps(first, new)?, self.steps(second, new)?);
        if new.is_none() && left.iter().chain(&right).any(|step| step.kind % 2 == 1) {
            return Err(Stop::Limit);
        }
        let mut demands = Vec::new();
        for (leader, other, swapped) in [(&left, &right, false), (&right, &left, true)] {
            for step in leader.iter().filter(|step| respects(step, apart)) {
                let apart = updated(step, apart, &free);
                let answers = other.iter().filter(|answer| answers_step(answer, step));
                let next = answers.map(|answer| {
                    let answered = self.rewritten(&answer.result, &step.classes);
                    match swapped {
                        false => self.situation(step.result.clone(), answered, &apart),
                        true => self.situation(answered, step.result.clone(), &apart),
                    }
                });
                demands.push(next.collect());
            }
        }
        Ok(demands)
    }
}

fn push(field: &[u8], bytes: &mut Vec<u8>) {
    bytes.extend((field.len() as u16).to_be_bytes());
    bytes.extend(field);
}

fn class(step: &Listed, name: u8) -> u8 {
    step.classes[usize::from(name)]
}

fn respects(step: &Listed, apart: &Pairs) -> bool {
    apart.iter().all(|&(a, b)| class(step, a) != class(step, b))
}

/// Definition 15.
fn updated(step: &Listed, apart: &Pairs, free: &BTreeSet<u8>) -> Pairs {
    let mut apart = apart.clone();
    if step.kind == 3 {
        apart.extend(free.iter().flat_map(|&name| [(name, step.object), (step.object, name)]));
    }
    apart.iter().map(|&(a, b)| (class(step, a), class(step, b))).collect()
}

fn answers_step(answer: &Listed, step: &Listed) -> bool {
    let implied = (0..16).all(|name| class(step, name) == class(step, class(answer, name)));
    let same_names =
        class(step, answer.channel) == step.channel && class(step, answer.object) == step.object;
    let silent = step.kind == 0;
    implied && answer.kind == step.kind && (silent || same_names)
}

/// The verdict, unless the question is given up.
fn verdict(fields: &Fields, capacity: usize) -> Option<Answer> {
    let definitions = Definitions::of(fields);
    let pairs = fields.apart.chunks(2).map(|pair| (pair[0], pair[1]));
    let apart: Pairs = pairs.flat_map(|(a, b)| [(a, b), (b, a)]).collect();
    let [first, second] = [&fields.first, &fields.second].map(|part| definitions.tidied(part));
    let start = definitions.situation(first, second, &apart);
    let mut field: BTreeMap<Situation, Vec<BTreeSet<Situation>>> = BTreeMap::new();
    let mut waiting = BTreeSet::from([start.clone()]);
    while let Some(situation) = waiting.pop_first() {
        let demands = match definitions.demands(&situation) {
            Ok(demands) => demands,
            Err(Stop::Limit) => return Some(Unsettled),
            Err(Stop::Unlisted) => return None,
        };
        let next = demands.iter().flatten().filter(|next| !field.contains_key(next));
        waiting.extend(next.filter(|&next| *next != situation).cloned());
        field.insert(situation, demands);
        if field.len() + waiting.len() > capacity {
            return Some(Unsettled);
        }
    }
    Some(struck_out(field, &start))
}

/// Strikes out, in rounds, each situation with a step that those left do not answer.
fn struck_out(
    mut field: BTreeMap<Situation, Vec<BTreeSet<Situation>>>,
    start: &Situation,
) -> Answer {
    let size = field.len() as u64;
    loop {
        let left: BTreeSet<Situation> = field.keys().cloned().collect();
        let stays = |answers: &BTreeSet<Situation>| !answers.is_disjoint(&left);
        field.retain(|_, demands| demands.iter().all(stays));
        if field.len() == left.len() {
            return if field.contains_key(start) { Same(size) } else { Different(size) };
        }
    }
}

#[test]
fn verdict_and_size_agree() {
    let (mut same, mut different, mut unsettled, mut larger) = (0, 0, 0, 0);
    each_seed(4000, |random| {
        let draft = match random.below(6) {
            0 => Draft::unrelated(random),
            1 | 2 => Draft::busy(random),
            3 => Draft::untidy(random),
            _ => Draft::near_miss(random),
        };
        let answer = common::judge(&draft.bytes(), 64);
        let Some(expected) = verdict(&draft.fields(), 64) else { return };
        assert_eq!(answer, expected, "{:02x?}", draft.bytes());
        match answer {
            Same(n) | Different(n) => larger += usize::from(n > 20),
            _ => unsettled += 1,
        }
        same += usize::from(matches!(answer, Same(_)));
        different += usize::from(matches!(answer, Different(_)));
    });
    println!("same {same}, different {different}, unsettled {unsettled}, above 20: {larger}");
    assert!(same.min(different).min(unsettled).min(larger) > 150);
}

/// The last pair of the appendix is left out: this way to its field is too long.
#[test]
fn worked_questions() {
    let unused = UNUSED.iter().map(|(worked, _)| worked);
    for worked in EXCHANGES.iter().chain(&APPENDIX[..APPENDIX.len() - 1]).chain(unused) {
        let answer = verdict(&worked.fields(), worked.capacity as usize);
        assert_eq!(answer.unwrap().to_string(), worked.answer, "{}", worked.name);
    }
}
