//! The shortest play that tells two parts apart.
//!
//! A move of one side that the other cannot answer tells a position apart in one step. A move all
//! of whose answers lead to positions told apart in fewer than n steps tells it apart in n. The
//! rank of a position is the least such number, so a play that goes down in rank is the shortest
//! and never goes round in a circle.

use crate::model::place;
use crate::position::{answers, permitted, Limit, Listed, Position, Table};
use exchange::{Refusal, Side, Step};
use std::collections::HashMap;

/// How many moves and answers are looked at before the search is given up.
const WORK: usize = 400_000;

/// A permitted step of one side, and what the other side can answer.
#[derive(Clone, Debug)]
pub struct Move {
    /// The side that moves.
    pub side: Side,
    /// Its step, by its place in the list of that side.
    pub step: usize,
    /// The answers: the place of each in the list of the other side, and the position that follows.
    pub answers: Vec<(usize, usize)>,
}

/// A move that leads somewhere.
#[derive(Clone, Copy, PartialEq, Eq, Debug)]
pub struct Origin {
    /// The position in which it is made.
    pub position: usize,
    /// The side that makes it.
    pub side: Side,
    /// Its step, by its place in the list of that side.
    pub step: usize,
}

/// What is known of a position that was looked at.
#[derive(Clone, Debug)]
pub struct Expanded {
    /// The steps of both sides.
    pub lists: [Vec<Listed>; 2],
    /// The permitted moves.
    pub moves: Vec<Move>,
}

/// Why there is no play, or no end of the search.
#[derive(Clone, Copy, PartialEq, Eq, Debug)]
pub enum Stopped {
    /// The search was given up after this many moves and answers.
    Work(usize),
    /// More positions were found than this.
    Positions(usize),
    /// No play was found, and the steps of this position are past a limit.
    Limit(usize, Limit),
    /// No play was found.
    NoPlay,
    /// The library refused a question that the search made.
    Refused(Refusal),
}

/// Positions, numbered as they were found; the start is 0.
pub struct Field {
    table: Table,
    /// All positions found.
    pub positions: Vec<Position>,
    numbers: HashMap<Position, usize>,
    /// By which move each position was found first; the start by none.
    origins: Vec<Option<Origin>>,
    /// What is known of each position that was looked at, in the same order.
    pub expanded: Vec<Result<Expanded, Limit>>,
    most: usize,
    work: usize,
}

impl Field {
    /// The start alone. At most this many positions are to be found. The start is told as it is; a
    /// play that comes back to it comes to its tidied form.
    pub fn new(table: Table, start: Position, most: usize) -> Field {
        let numbers = HashMap::from([(table.tidied(&start), 0)]);
        Field {
            table,
            positions: vec![start],
            numbers,
            origins: vec![None],
            expanded: Vec::new(),
            most,
            work: 0,
        }
    }

    /// The moves from the start by which a position was found.
    pub fn path(&self, position: usize) -> Vec<Origin> {
        let origin = |position: usize| self.origins[position];
        let back = std::iter::successors(origin(position), |from| origin(from.position));
        let mut path: Vec<Origin> = back.collect();
        path.reverse();
        path
    }

    /// The step of a move.
    pub fn step(&self, origin: Origin) -> Option<Step<'_>> {
        let expanded = self.expanded.get(origin.position)?.as_ref().ok()?;
        Some(expanded.lists[place(origin.side)].get(origin.step)?.step())
    }

    /// The table.
    pub fn table(&self) -> &Table {
        &self.table
    }

    /// Looks at positions in the order in which they are found, to this distance from the start.
    ///
    /// # Errors
    /// What stopped it.
    pub fn look(&mut self, distance: usize) -> Result<(), Stopped> {
        let mut layer = self.expanded.len()..self.positions.len();
        for _ in 0..distance {
            for number in layer.clone() {
                let expanded = self.expand(number)?;
                self.expanded.push(expanded);
            }
            layer = layer.end..self.positions.len();
            if layer.is_empty() {
                break;
            }
        }
        Ok(())
    }

    /// Whether every position found was looked at.
    pub fn is_whole(&self) -> bool {
        self.expanded.len() == self.positions.len()
    }

    /// The first position that is past a limit of the library, or else one whose steps cannot be
    /// listed, with the limit.
    pub fn first_limit(&self) -> Option<(usize, Limit)> {
        let limits = self.expanded.iter().enumerate();
        let limits = limits.filter_map(|(at, expanded)| Some((at, *expanded.as_ref().err()?)));
        limits.min_by_key(|&(at, limit)| (matches!(limit, Limit::Unlistable(_)), at))
    }

    fn expand(&mut self, number: usize) -> Result<Result<Expanded, Limit>, Stopped> {
        let position = self.positions[number].clone();
        let lists = match self.table.steps(&position) {
            Ok(lists) => lists,
            Err(limit) => return Ok(Err(limit)),
        };
        let mut moves = Vec::new();
        for side in Side::BOTH {
            for (step, listed) in lists[place(side)].iter().enumerate() {
                if permitted(listed.step(), &position.apart) {
                    let origin = Origin { position: number, side, step };
                    let answers = self.answers(origin, &position, &lists)?;
                    moves.push(Move { side, step, answers });
                }
            }
        }
        Ok(Ok(Expanded { lists, moves }))
    }

    fn answers(
        &mut self,
        origin: Origin,
        position: &Position,
        lists: &[Vec<Listed>; 2],
    ) -> Result<Vec<(usize, usize)>, Stopped> {
        let mut found = Vec::new();
        let step = lists[place(origin.side)][origin.step].step();
        for (place_of_answer, answer) in lists[place(origin.side.other())].iter().enumerate() {
            self.work += 1;
            if self.work > WORK {
                return Err(Stopped::Work(WORK));
            }
            if answers(answer.step(), step) {
                let after = self.table.after(position, origin.side, step, answer.step());
                let number = self.number(after.map_err(Stopped::Refused)?, origin)?;
                found.push((place_of_answer, number));
            }
        }
        Ok(found)
    }

    /// The number of a position, which may be new.
    fn number(&mut self, position: Position, origin: Origin) -> Result<usize, Stopped> {
        if let Some(&number) = self.numbers.get(&position) {
            return Ok(number);
        }
        if self.positions.len() == self.most {
            return Err(Stopped::Positions(self.most));
        }
        let number = self.positions.len();
        self.origins.push(Some(origin));
        self.positions.push(position.clone());
        self.numbers.insert(position, number);
        Ok(number)
    }

    /// The rank of each position, as far as the moves looked at show one.
    fn ranks(&self) -> Vec<Option<usize>> {
        let mut ranks = vec![None; self.positions.len()];
        let mut waiting: Vec<Vec<(usize, usize)>> = vec![Vec::new(); self.positions.len()];
        let mut left = Vec::new();
        let mut ranked = Vec::new();
        for (owner, expanded) in self.expanded.iter().enumerate() {
            for moved in expanded.iter().flat_map(|expanded| &expanded.moves) {
                for &(_, answer) in &moved.answers {
                    waiting[answer].push((owner, left.len()));
                }
                left.push(moved.answers.len());
                if moved.answers.is_empty() && ranks[owner].is_none() {
                    ranks[owner] = Some(1);
                    ranked.push(owner);
                }
            }
        }
        let mut next = 0;
        while let Some(&position) = ranked.get(next) {
            next += 1;
            for &(owner, number) in &waiting[position] {
                left[number] -= 1;
                if left[number] == 0 && ranks[owner].is_none() {
                    ranks[owner] = ranks[position].map(|rank| rank + 1);
                    ranked.push(owner);
                }
            }
        }
        ranks
    }
}

/// A field in which the start has a rank.
pub struct Play {
    /// The field, as far as it was looked at.
    pub field: Field,
    ranks: Vec<Option<usize>>,
}

impl Play {
    /// The shortest play from the start of the field. The field is looked at to growing distances:
    /// a play of n steps needs only what is less than n steps away.
    ///
    /// # Errors
    /// Why there is none.
    pub fn find(mut field: Field) -> Result<Play, Stopped> {
        let mut distance = 0;
        loop {
            let further = distance.max(1);
            field.look(further)?;
            distance += further;
            let ranks = field.ranks();
            let whole = field.is_whole();
            match ranks[0] {
                Some(rank) if rank <= distance || whole => return Ok(Play { field, ranks }),
                None if whole => {
                    let limit = field.first_limit();
                    return Err(limit.map_or(Stopped::NoPlay, |(at, why)| Stopped::Limit(at, why)));
                }
                _ => {}
            }
        }
    }

    /// The number of steps of the play from a position.
    pub fn rank(&self, position: usize) -> Option<usize> {
        self.ranks[position]
    }

    /// The pairs of names that the first move merges, by their bytes.
    pub fn merged_first(&self) -> Vec<(u8, u8)> {
        let Some((_, step)) = self.best_step(0) else { return Vec::new() };
        let merged = exchange::Name::all().filter(|&name| step.class(name) != name);
        merged.map(|name| (step.class(name).byte(), name.byte())).collect()
    }

    /// The side that moves by which the play goes on, and its step.
    pub fn best_step(&self, position: usize) -> Option<(Side, Step<'_>)> {
        let (expanded, best) = self.best(position)?;
        Some((best.side, expanded.lists[place(best.side)][best.step].step()))
    }

    /// The position after the answer that holds out longest against that move, if there is one.
    pub fn longest_answer(&self, position: usize) -> Option<usize> {
        let (_, best) = self.best(position)?;
        best.answers.iter().map(|&(_, to)| to).max_by_key(|&to| self.ranks[to])
    }

    /// The move by which the play goes on: of those that go down in rank, the one with the fewest
    /// answers, then with the fewest names merged.
    pub fn best(&self, position: usize) -> Option<(&Expanded, &Move)> {
        let rank = self.ranks[position]?;
        let expanded = self.field.expanded.get(position)?.as_ref().ok()?;
        let goes_down = |moved: &&Move| {
            let below = |&(_, answer): &(usize, usize)| {
                self.ranks[answer].is_some_and(|answer| answer < rank)
            };
            moved.answers.iter().all(below)
        };
        let merged = |moved: &Move| {
            let step = expanded.lists[place(moved.side)][moved.step].step();
            exchange::Name::all().filter(|&name| step.class(name) != name).count()
        };
        let moves = expanded.moves.iter().filter(goes_down);
        let best = moves.min_by_key(|moved| (moved.answers.len(), merged(moved)))?;
        Some((expanded, best))
    }
}
