//! The play that tells two parts apart, in words.

use super::Teller;
use crate::model::place;
use crate::play::{Expanded, Field, Move, Play, Stopped};
use crate::position::{action_under, permitted, Limit, Listed, Position, Table};
use crate::telling::Block;
use crate::words::{counted, Naming};
use exchange::{Answer, Judge, Step, Verdict};
use std::collections::HashMap;

/// The most positions of a play that are told.
const POSITIONS: usize = 40;
/// The most steps of the other side that are told where none answers.
const STEPS: usize = 8;

impl Teller<'_> {
    pub(super) fn different(
        &self,
        table: Table,
        start: Position,
        size: usize,
        judge: &mut Judge,
    ) -> (Vec<Block>, Option<Play>) {
        let mut blocks = vec![self.verdict("are different", size)];
        let advice = self.advice(&table, &start, judge);
        let play = match Play::find(Field::new(table, start, size)) {
            Ok(play) => play,
            Err(stopped) => {
                blocks.push(Block::Text(self.no_play(stopped)));
                blocks.extend(advice.map(Block::Text));
                return (blocks, None);
            }
        };
        let moves = counted(play.rank(0).unwrap_or(0), "move");
        blocks.push(Block::Text(match play.field.first_limit() {
            None => format!("The shortest play that tells them apart has {moves}."),
            Some(_) => format!(
                "A play that tells them apart has {moves}. A shorter one may pass a part that uses \
                 all {} names, whose steps cannot be listed.",
                exchange::Name::COUNT
            ),
        }));
        let mut told = Told::new(self, &play, judge);
        told.position(0, self.speaker.names());
        blocks.extend(told.finished());
        blocks.extend(advice.map(Block::Text));
        (blocks, Some(play))
    }

    fn no_play(&self, stopped: Stopped) -> String {
        match stopped {
            Stopped::Work(work) => {
                format!("No play is told: the search was given up after {work} moves and answers.")
            }
            Stopped::Limit(_, Limit::Unlistable(side)) => format!(
                "No play is told: a part that {} becomes uses all {} names, and the library can \
                 list its steps only with one to spare.",
                self.exchange.label(side),
                exchange::Name::COUNT
            ),
            _ => "No play is told: the search did not find one.".to_string(),
        }
    }
}

/// The positions of a play that are told so far.
struct Told<'a> {
    teller: &'a Teller<'a>,
    play: &'a Play,
    judge: &'a mut Judge,
    numbers: HashMap<(usize, Naming), usize>,
    waiting: Vec<(usize, Naming)>,
    blocks: Vec<Block>,
    confirmed: usize,
    cut: bool,
}

impl<'a> Told<'a> {
    fn new(teller: &'a Teller<'a>, play: &'a Play, judge: &'a mut Judge) -> Told<'a> {
        Told {
            teller,
            play,
            judge,
            numbers: HashMap::new(),
            waiting: Vec::new(),
            blocks: Vec::new(),
            confirmed: 0,
            cut: false,
        }
    }

    /// Tells a position and all that its answers lead to.
    fn position(&mut self, position: usize, names: Naming) {
        self.number(position, names);
        let mut next = 0;
        while let Some((position, names)) = self.waiting.get(next).cloned() {
            next += 1;
            self.one(next, position, &names);
        }
    }

    /// The number under which a position is told, unless it is one too many.
    fn number(&mut self, position: usize, names: Naming) -> Option<usize> {
        let table = self.play.field.table();
        let free = table.free(&self.play.field.positions[position].parts);
        let mut used = names.clone();
        for (byte, word) in used.iter_mut().enumerate() {
            if !free.contains(&(byte as u8)) {
                word.clear();
            }
        }
        if let Some(&number) = self.numbers.get(&(position, used.clone())) {
            return Some(number);
        }
        if self.waiting.len() == POSITIONS {
            self.cut = true;
            return None;
        }
        self.waiting.push((position, names));
        self.numbers.insert((position, used), self.waiting.len());
        Some(self.waiting.len())
    }

    /// One position: the parts, the move, and why each answer fails.
    fn one(&mut self, number: usize, position: usize, names: &Naming) {
        let play = self.play;
        let Some((expanded, best)) = play.best(position) else { return };
        let here = &play.field.positions[position];
        let table = play.field.table();
        let judged = table.judged(here, self.judge);
        self.confirmed += usize::from(matches!(judged, Ok(Answer::Result(Verdict::Different(_)))));
        let speaker = &self.teller.speaker;
        self.blocks.push(Block::Position(number));
        let parts = match position {
            // as the person wrote them
            0 => self.teller.exchange.parts.clone(),
            _ => here.parts.each_ref().map(|part| table.term(part)),
        };
        for (label, part) in self.teller.exchange.labels.iter().zip(&parts) {
            self.blocks.push(Block::Term(label.clone(), speaker.term(part, names)));
        }
        if !here.apart.is_empty() {
            self.blocks.push(Block::Apart(speaker.apart_list(&here.apart, names)));
        }
        self.moved(position, expanded, best, names);
    }

    fn moved(&mut self, position: usize, expanded: &Expanded, best: &Move, names: &Naming) {
        let Teller { exchange, speaker, .. } = self.teller;
        let table = self.play.field.table();
        let step = expanded.lists[place(best.side)][best.step].step();
        let here = &self.play.field.positions[position];
        let after = speaker.names_after(names, here, best.side, step, table);
        let (label, other) = (exchange.label(best.side), exchange.label(best.side.other()));
        let action = speaker.action(step.action(), &after);
        self.blocks.push(Block::Text(match speaker.condition(step, names) {
            Some(condition) => format!("If {condition}, {label} {action} and becomes"),
            None => format!("{label} {action} and becomes"),
        }));
        let result = speaker.term(&table.term(step.result()), &after);
        self.blocks.push(Block::Term(label.to_string(), result));
        match best.answers.is_empty() {
            true => self.no_answer(expanded, best, &here.apart, &after, other),
            false => self.answers(expanded, best, &after, other),
        }
    }

    /// All moves of the other side that the apart pairs permit, and why none is an answer.
    fn no_answer(
        &mut self,
        expanded: &Expanded,
        best: &Move,
        apart: &[(u8, u8)],
        names: &Naming,
        other: &str,
    ) {
        let step = expanded.lists[place(best.side)][best.step].step();
        let others = expanded.lists[place(best.side.other())].iter().map(Listed::step);
        let mut steps: Vec<Step<'_>> = others.filter(|&other| permitted(other, apart)).collect();
        if steps.is_empty() {
            let told = format!("{other} has no answer: it makes no move at all.");
            return self.blocks.push(Block::Text(told));
        }
        self.blocks.push(Block::Text(format!("{other} has no answer. All that it can do:")));
        // Those that come closest first.
        steps.sort_by_key(|&other| action_under(other, step) != step.action());
        let mut reasons: Vec<String> = Vec::new();
        for other in steps {
            let reason = self.teller.speaker.no_answer(other, step, names);
            if !reasons.contains(&reason) {
                reasons.push(reason);
            }
        }
        let more = reasons.len().saturating_sub(STEPS);
        self.blocks.extend(reasons.into_iter().take(STEPS).map(Block::Item));
        if more > 0 {
            self.blocks.push(Block::Item(format!("and {more} more moves, none of them the same")));
        }
    }

    fn answers(&mut self, expanded: &Expanded, best: &Move, names: &Naming, other: &str) {
        self.blocks.push(Block::Text(format!(
            "{other} can answer in {}, and still differs after {}:",
            counted(best.answers.len(), "way"),
            if best.answers.len() == 1 { "it" } else { "each" }
        )));
        let table = self.play.field.table();
        let (own, side) = (place(best.side), place(best.side.other()));
        let step = expanded.lists[own][best.step].step();
        for &(place_of_answer, to) in &best.answers {
            let answer = expanded.lists[side][place_of_answer].step();
            let action = self.teller.speaker.action(action_under(answer, step), names);
            let becomes = table.term(&self.play.field.positions[to].parts[side]);
            let becomes = self.teller.speaker.term(&becomes, names);
            let goes_on = match self.number(to, names.clone()) {
                Some(number) => format!("position {number}"),
                None => "not told any more".to_string(),
            };
            let told = format!("it {action} and becomes `{becomes}`: {goes_on}");
            self.blocks.push(Block::Item(told));
        }
    }

    /// All that was told, with what the library said of the positions.
    fn finished(mut self) -> Vec<Block> {
        let positions = self.waiting.len();
        let judged = match (positions, self.confirmed == positions) {
            (1, true) => "The library judges this position different.".to_string(),
            (_, true) => {
                format!("The library judges each of these {positions} positions different.")
            }
            _ => format!(
                "The library judges only {} of these {positions} positions different: do not rely \
                 on this play.",
                self.confirmed
            ),
        };
        self.blocks.push(Block::Text(judged));
        if self.cut {
            let told = format!("Only the first {POSITIONS} positions are told.");
            self.blocks.push(Block::Text(told));
        }
        self.blocks
    }
}
