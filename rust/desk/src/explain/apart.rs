//! What "same" covers, and which names have to be apart for it.

use super::Teller;
use crate::fewest::{fewest, Fewest};
use crate::position::{ordered, Pairs, Position, Table};
use crate::telling::Block;
use crate::words::{counted, listed};
use exchange::Judge;

impl Teller<'_> {
    pub(super) fn same(
        &self,
        table: &Table,
        start: &Position,
        size: usize,
        judge: &mut Judge,
    ) -> Vec<Block> {
        let mut blocks = vec![self.verdict("are the same", size)];
        blocks.push(Block::Text(self.covered(&table.free(&start.parts), &start.apart)));
        blocks.push(Block::Text(
            "They stay the same when names that are not held apart are merged later, when further \
             names are held apart, and when one third part is set beside both."
                .into(),
        ));
        if !start.apart.is_empty() {
            let needed = fewest(table, start, &[], &start.apart, judge);
            blocks.push(Block::Text(self.needed(&needed, start.apart.len())));
        }
        blocks
    }

    /// For which names "same" holds.
    fn covered(&self, free: &[u8], apart: &[(u8, u8)]) -> String {
        let names = self.speaker.names();
        let words: Vec<&str> = free.iter().map(|&byte| names[usize::from(byte)].as_str()).collect();
        let mut told =
            "Every move of either is answered by the other, and so on from there".to_string();
        if words.len() > 1 {
            told += &format!(", whichever of the names {} are one", listed(&words));
        }
        if !apart.is_empty() {
            let pairs = self.speaker.pairs(apart, &names);
            told += &format!(", as long as these stay apart: {pairs}");
        }
        told + "."
    }

    /// How much of the apart list is needed for "same".
    fn needed(&self, needed: &Fewest, listed: usize) -> String {
        let names = self.speaker.names();
        match needed {
            Fewest::Pairs(pairs) if pairs.is_empty() => {
                "Nothing had to be held apart: without the apart list they are the same too.".into()
            }
            Fewest::Pairs(pairs) => format!(
                "The fewest that had to be apart: {} ({} of {} listed).",
                self.speaker.pairs(pairs, &names),
                pairs.len(),
                counted(listed, "pair")
            ),
            Fewest::Enough(pairs) => format!(
                "It is enough to hold apart {}; whether fewer pairs are enough was not found within \
                 the limits.",
                self.speaker.pairs(pairs, &names)
            ),
            Fewest::None | Fewest::Unknown => "How much of the apart list is needed was not found.".into(),
        }
    }

    /// What could be held apart to make the parts the same.
    pub(super) fn advice(
        &self,
        table: &Table,
        start: &Position,
        judge: &mut Judge,
    ) -> Option<String> {
        let names = self.speaker.names();
        let free = table.free(&start.parts);
        let all = free.iter().flat_map(|&a| free.iter().map(move |&b| (a, b)));
        let others = ordered(all.filter(|(a, b)| a < b));
        let others: Pairs = others.into_iter().filter(|pair| !start.apart.contains(pair)).collect();
        if others.is_empty() {
            return None;
        }
        let (pairs, fewer) = match fewest(table, start, &start.apart, &others, judge) {
            Fewest::Pairs(pairs) => (pairs, "; no fewer pairs do"),
            Fewest::Enough(pairs) => (pairs, ""),
            Fewest::None => {
                return Some("No names held apart would make them the same.".to_string());
            }
            Fewest::Unknown => return None,
        };
        let list = self.speaker.apart_list(&pairs, &names);
        Some(format!("With `apart: {list}` they would be the same{fewer}."))
    }
}
