//! Verdicts against open bisimilarity as it was first defined: for all substitutions that respect
//! the apart pairs, each ground step of one side (table 3.1 of document 000) has an answer on the
//! other. There are no conditions here, and terms carry explicit, ever fresh bound names.

mod common;

use generate::{Draft, Random};
use reference::Answer::{Different, Same};
use std::collections::{BTreeMap, BTreeSet, HashMap};

type Name = u32;
type Pairs = BTreeSet<(Name, Name)>;

/// Bound names count up from here; free names stay below.
const FIRST_BOUND: Name = 1000;
/// How many situations are looked at before a question is given up.
const MOST: usize = 1500;
/// How long a part may become, in letters: nothing is tidied here, so that restrictions gather.
const LONGEST: usize = 200;

#[derive(Clone, Debug)]
enum Term {
    Nil,
    Silent(Box<Term>),
    Input(Name, Name, Box<Term>),
    Output(Name, Name, Box<Term>),
    NewOutput(Name, Name, Box<Term>),
    Match(Name, Name, Box<Term>),
    Choice(Box<Term>, Box<Term>),
    Parallel(Box<Term>, Box<Term>),
    Restriction(Name, Box<Term>),
    Call(usize, Vec<Name>),
}

#[derive(Clone, PartialEq, Debug)]
enum Action {
    Silent,
    Input(Name, Name),
    Output(Name, Name),
    NewOutput(Name, Name),
}

/// Definitions as arity and bytes, and the source of fresh names.
struct World {
    definitions: Vec<(usize, Vec<u8>)>,
    fresh: Name,
}

impl World {
    fn fresh(&mut self) -> Name {
        self.fresh += 1;
        self.fresh
    }

    /// Reads a term whose enclosing binders have these names, the innermost last.
    fn read(&mut self, bytes: &mut &[u8], scope: &mut Vec<Name>) -> Term {
        match next(bytes) {
            0 => Term::Nil,
            1 => Term::Silent(self.read(bytes, scope).into()),
            2 => {
                let channel = name(bytes, scope);
                let (bound, inner) = self.read_beneath(bytes, scope);
                Term::Input(channel, bound, inner)
            }
            3 => {
                Term::Output(name(bytes, scope), name(bytes, scope), self.read(bytes, scope).into())
            }
            4 => {
                let channel = name(bytes, scope);
                let (bound, inner) = self.read_beneath(bytes, scope);
                Term::NewOutput(channel, bound, inner)
            }
            5 => {
                Term::Match(name(bytes, scope), name(bytes, scope), self.read(bytes, scope).into())
            }
            6 => Term::Choice(self.read(bytes, scope).into(), self.read(bytes, scope).into()),
            7 => Term::Parallel(self.read(bytes, scope).into(), self.read(bytes, scope).into()),
            8 => {
                let (bound, inner) = self.read_beneath(bytes, scope);
                Term::Restriction(bound, inner)
            }
            _ => {
                let k = usize::from(next(bytes));
                Term::Call(k, (0..self.definitions[k].0).map(|_| name(bytes, scope)).collect())
            }
        }
    }

    /// Reads a term beneath one more binder, which gets a fresh name.
    fn read_beneath(&mut self, bytes: &mut &[u8], scope: &mut Vec<Name>) -> (Name, Box<Term>) {
        let bound = self.fresh();
        scope.push(bound);
        let inner = self.read(bytes, scope);
        scope.pop();
        (bound, inner.into())
    }

    /// The ground steps of a term. Its bound names are all different, so nothing is captured.
    fn steps(&mut self, term: &Term) -> Vec<(Action, Term)> {
        match term {
            Term::Nil => vec![],
            Term::Silent(p) => vec![(Action::Silent, (**p).clone())],
            Term::Input(a, x, p) => vec![(Action::Input(*a, *x), (**p).clone())],
            Term::Output(a, b, p) => vec![(Action::Output(*a, *b), (**p).clone())],
            Term::NewOutput(a, x, p) => vec![(Action::NewOutput(*a, *x), (**p).clone())],
            Term::Match(a, b, p) if a == b => self.steps(p),
            Term::Match(..) => vec![],
            Term::Choice(p, q) => [self.steps(p), self.steps(q)].concat(),
            Term::Parallel(p, q) => self.parallel(p, q),
            Term::Restriction(x, p) => {
                let steps = self.steps(p).into_iter();
                steps.filter_map(|(action, after)| restricted(*x, action, after)).collect()
            }
            Term::Call(k, names) => {
                let body = self.definitions[*k].1.clone();
                let body = self.read(&mut &body[..], &mut names.clone());
                self.steps(&body)
            }
        }
    }

    fn parallel(&mut self, p: &Term, q: &Term) -> Vec<(Action, Term)> {
        let beside = |p: &Term, q: &Term| Term::Parallel(p.clone().into(), q.clone().into());
        let (left, right) = (self.steps(p), self.steps(q));
        let mut steps = Vec::new();
        steps.extend(left.iter().map(|(action, p)| (action.clone(), beside(p, q))));
        steps.extend(right.iter().map(|(action, q)| (action.clone(), beside(p, q))));
        for (l, p) in &left {
            for (r, q) in &right {
                let met = match (l, r) {
                    (Action::Output(a, y), Action::Input(b, x)) if a == b => {
                        beside(p, &replaced(q, *x, *y))
                    }
                    (Action::Input(b, x), Action::Output(a, y)) if a == b => {
                        beside(&replaced(p, *x, *y), q)
                    }
                    (Action::NewOutput(a, y), Action::Input(b, x)) if a == b => {
                        Term::Restriction(*y, beside(p, &replaced(q, *x, *y)).into())
                    }
                    (Action::Input(b, x), Action::NewOutput(a, y)) if a == b => {
                        Term::Restriction(*y, beside(&replaced(p, *x, *y), q).into())
                    }
                    _ => continue,
                };
                steps.push((Action::Silent, met));
            }
        }
        steps
    }
}

fn next(bytes: &mut &[u8]) -> u8 {
    let (&byte, rest) = bytes.split_first().unwrap();
    *bytes = rest;
    byte
}

fn name(bytes: &mut &[u8], scope: &[Name]) -> Name {
    match next(bytes) {
        byte if byte < 0x80 => Name::from(byte),
        byte => scope[scope.len() - 1 - usize::from(byte - 0x80)],
    }
}

/// Res and Open.
fn restricted(x: Name, action: Action, after: Term) -> Option<(Action, Term)> {
    match action {
        Action::Output(a, b) if b == x && a != x => Some((Action::NewOutput(a, x), after)),
        Action::Input(a, _) | Action::NewOutput(a, _) | Action::Output(a, _) if a == x => None,
        action => Some((action, Term::Restriction(x, after.into()))),
    }
}

fn replaced(term: &Term, x: Name, y: Name) -> Term {
    renamed(term, &|name| if name == x { y } else { name })
}

/// Every name changed; the function keeps bound names.
fn renamed(term: &Term, of: &dyn Fn(Name) -> Name) -> Term {
    let on = |term: &Term| Box::new(renamed(term, of));
    match term {
        Term::Nil => Term::Nil,
        Term::Silent(p) => Term::Silent(on(p)),
        Term::Input(a, x, p) => Term::Input(of(*a), *x, on(p)),
        Term::Output(a, b, p) => Term::Output(of(*a), of(*b), on(p)),
        Term::NewOutput(a, x, p) => Term::NewOutput(of(*a), *x, on(p)),
        Term::Match(a, b, p) => Term::Match(of(*a), of(*b), on(p)),
        Term::Choice(p, q) => Term::Choice(on(p), on(q)),
        Term::Parallel(p, q) => Term::Parallel(on(p), on(q)),
        Term::Restriction(x, p) => Term::Restriction(*x, on(p)),
        Term::Call(k, names) => Term::Call(*k, names.iter().map(|&name| of(name)).collect()),
    }
}

/// A text in which bound names are told by their depth: equal exactly for alpha-equal terms.
fn written(term: &Term, scope: &mut Vec<Name>, free: &mut BTreeSet<Name>) -> String {
    let mut name = |name: &Name| match scope.iter().rev().position(|bound| bound == name) {
        Some(depth) => format!("#{depth}"),
        None => {
            assert!(*name < FIRST_BOUND, "a bound name got loose");
            free.insert(*name);
            format!("{name}")
        }
    };
    let head = match term {
        Term::Nil => return "0".into(),
        Term::Silent(_) => "t.".into(),
        Term::Input(a, ..) => format!("{}().", name(a)),
        Term::Output(a, b, _) => format!("{}<{}>.", name(a), name(b)),
        Term::NewOutput(a, ..) => format!("{}<new>.", name(a)),
        Term::Match(a, b, _) => format!("[{}={}]", name(a), name(b)),
        Term::Choice(..) => "+".into(),
        Term::Parallel(..) => "|".into(),
        Term::Restriction(..) => "new ".into(),
        Term::Call(k, names) => {
            return format!("K{k}{:?}", names.iter().map(name).collect::<Vec<_>>());
        }
    };
    let inner = match term {
        Term::Input(_, x, p) | Term::NewOutput(_, x, p) | Term::Restriction(x, p) => {
            scope.push(*x);
            let inner = written(p, scope, free);
            scope.pop();
            inner
        }
        Term::Silent(p) | Term::Output(_, _, p) | Term::Match(_, _, p) => written(p, scope, free),
        Term::Choice(p, q) | Term::Parallel(p, q) => {
            format!("({};{})", written(p, scope, free), written(q, scope, free))
        }
        Term::Nil | Term::Call(..) => unreachable!("given back above"),
    };
    head + &inner
}

fn free_names(terms: [&Term; 2]) -> BTreeSet<Name> {
    let mut free = BTreeSet::new();
    for term in terms {
        written(term, &mut Vec::new(), &mut free);
    }
    free
}

/// All ways to make some of the names equal, each class going to its smallest name.
fn substitutions(names: &[Name]) -> Vec<BTreeMap<Name, Name>> {
    let Some((&last, before)) = names.split_last() else { return vec![BTreeMap::new()] };
    let mut all = Vec::new();
    for substitution in substitutions(before) {
        let classes: BTreeSet<Name> = substitution.values().copied().collect();
        for class in classes.into_iter().chain([last]) {
            let mut longer = substitution.clone();
            longer.insert(last, class);
            all.push(longer);
        }
    }
    all
}

#[derive(Clone)]
struct Situation {
    first: Term,
    second: Term,
    apart: Pairs,
}

/// The situations, and for each the demands: of each, one situation must stay.
struct Game {
    world: World,
    numbers: HashMap<String, usize>,
    situations: Vec<Situation>,
    demands: Vec<Vec<Vec<usize>>>,
}

impl Game {
    fn place(&mut self, first: Term, second: Term, apart: &Pairs) -> usize {
        let free = free_names([&first, &second]);
        let both = |pair: &&(Name, Name)| free.contains(&pair.0) && free.contains(&pair.1);
        let apart: Pairs = apart.iter().filter(both).copied().collect();
        let [left, right] =
            [&first, &second].map(|term| written(term, &mut Vec::new(), &mut BTreeSet::new()));
        let key = format!("{left} ~ {right} {apart:?}");
        let next = self.situations.len();
        let number = *self.numbers.entry(key).or_insert(next);
        if number == next {
            self.situations.push(Situation { first, second, apart });
        }
        number
    }

    fn take_up(&mut self, number: usize) {
        let Situation { first, second, apart } = self.situations[number].clone();
        let free: Vec<Name> = free_names([&first, &second]).into_iter().collect();
        let mut demands = Vec::new();
        for substitution in substitutions(&free) {
            let of = |name: Name| substitution.get(&name).copied().unwrap_or(name);
            if apart.iter().any(|&(a, b)| of(a) == of(b)) {
                continue;
            }
            let apart: Pairs = apart.iter().map(|&(a, b)| (of(a), of(b))).collect();
            let (first, second) = (renamed(&first, &of), renamed(&second, &of));
            self.answer(&first, &second, &apart, false, &mut demands);
            self.answer(&second, &first, &apart, true, &mut demands);
        }
        self.demands.push(demands);
    }

    /// The demands of one side's ground steps.
    fn answer(
        &mut self,
        leader: &Term,
        other: &Term,
        apart: &Pairs,
        swapped: bool,
        demands: &mut Vec<Vec<usize>>,
    ) {
        let free = free_names([leader, other]);
        let new = (0..).find(|name| !free.contains(name)).unwrap();
        let steps = self.world.steps(leader);
        let answers = self.world.steps(other);
        for (action, after) in steps {
            let (action, after) = with_new(action, after, new);
            let mut apart = apart.clone();
            if matches!(action, Action::NewOutput(..)) {
                apart.extend(free.iter().flat_map(|&name| [(name, new), (new, name)]));
            }
            let mut options = Vec::new();
            for (answer, answered) in answers.clone() {
                let (answer, answered) = with_new(answer, answered, new);
                if answer == action {
                    options.push(match swapped {
                        false => self.place(after.clone(), answered, &apart),
                        true => self.place(answered, after.clone(), &apart),
                    });
                }
            }
            demands.push(options);
        }
    }

    /// Whether the start stays when situations with an unanswered step are struck out.
    fn start_stays(&self) -> bool {
        let mut stays = vec![true; self.situations.len()];
        loop {
            let mut changed = false;
            for number in 0..stays.len() {
                let met = |options: &Vec<usize>| options.iter().any(|&option| stays[option]);
                if stays[number] && !self.demands[number].iter().all(met) {
                    stays[number] = false;
                    changed = true;
                }
            }
            if !changed {
                return stays[0];
            }
        }
    }
}

fn with_new(action: Action, after: Term, new: Name) -> (Action, Term) {
    match action {
        Action::Input(a, x) => (Action::Input(a, new), replaced(&after, x, new)),
        Action::NewOutput(a, x) => (Action::NewOutput(a, new), replaced(&after, x, new)),
        action => (action, after),
    }
}

/// Whether a situation has many names, or parts that have become long.
fn is_large(Situation { first, second, .. }: &Situation) -> bool {
    let mut free = BTreeSet::new();
    let texts = [first, second].map(|term| written(term, &mut Vec::new(), &mut free));
    free.len() > 5 || texts.iter().any(|text| text.len() > LONGEST)
}

/// Whether the parts are open bisimilar, if that can be found out in reasonable time.
fn related(draft: &Draft) -> Option<bool> {
    let definitions = draft.definitions.iter();
    let definitions = definitions.map(|(arity, body)| (usize::from(*arity), body.bytes()));
    let world = World { definitions: definitions.collect(), fresh: FIRST_BOUND };
    let mut game =
        Game { world, numbers: HashMap::new(), situations: Vec::new(), demands: Vec::new() };
    let apart = draft.apart.iter().map(|&(a, b)| (Name::from(a), Name::from(b)));
    let apart: Pairs = apart.flat_map(|(a, b)| [(a, b), (b, a)]).collect();
    let [first, second] = [&draft.first, &draft.second]
        .map(|part| game.world.read(&mut &part.bytes()[..], &mut Vec::new()));
    game.place(first, second, &apart);
    let mut number = 0;
    while number < game.situations.len() {
        if game.situations.len() > MOST || is_large(&game.situations[number]) {
            return None;
        }
        game.take_up(number);
        number += 1;
    }
    Some(game.start_stays())
}

#[test]
fn verdicts_agree_with_the_first_definition() {
    let (mut same, mut different, mut larger) = (0, 0, 0);
    for seed in 0..2400 {
        let random = &mut Random::new(seed);
        let draft = match seed % 6 {
            0 => Draft::unrelated(random),
            4 => Draft::busy(random),
            5 => Draft::untidy(random),
            _ => Draft::near_miss(random),
        };
        let too_large = draft.names > 4 || draft.first.size() + draft.second.size() > 70;
        let answer = common::judge(&draft.bytes(), 128);
        let (Same(n) | Different(n)) = answer else { continue };
        if too_large {
            continue;
        }
        if let Some(related) = related(&draft) {
            assert_eq!(related, matches!(answer, Same(_)), "{seed}: {:02x?}", draft.bytes());
            same += usize::from(related);
            different += usize::from(!related);
            larger += usize::from(n > 5);
        }
    }
    println!("same {same}, different {different}, fields above 5: {larger}");
    assert!(same > 400 && different > 300);
}
