//! The words in one panel of a drawing.

use super::components::{Component, Known, Pieces};
use super::merged::Merged;
use crate::words::{all_names, Naming, Speaker};

/// The words in one panel.
pub struct Labels<'a> {
    merged: &'a Merged,
    speaker: &'a Speaker<'a>,
    names: Naming,
    privates: Vec<String>,
}

impl<'a> Labels<'a> {
    pub fn new(merged: &'a Merged, pieces: &Pieces<'_>, speaker: &'a Speaker<'a>) -> Labels<'a> {
        let names = all_names(&merged.exchange().names);
        let mut privates: Vec<String> = Vec::new();
        for (restriction, around) in &pieces.restrictions {
            let binders: Vec<String> =
                around.iter().map(|&number| privates[number].clone()).collect();
            let word = speaker.printer(&names).bound_word(restriction, &binders);
            let taken = |word: &String| privates.contains(word) || names.contains(word);
            let more = (2..).map(|number| format!("{word}{number}"));
            let free = std::iter::once(word.clone()).chain(more).find(|word| !taken(word));
            privates.push(free.unwrap_or(word));
        }
        Labels { merged, speaker, names, privates }
    }

    pub fn term(&self, component: &Component<'_>) -> String {
        let around: Vec<String> =
            component.around.iter().map(|&number| self.privates[number].clone()).collect();
        self.speaker.printer(&self.names).term(component.term, &around)
    }

    pub fn label(&self, name: Known) -> String {
        match name {
            Known::Free(byte) => self.merged.label(byte),
            Known::Private(number) => self.privates[number].clone(),
        }
    }

    /// The names that the components use, those of upper boxes first.
    pub fn in_order(&self, pieces: &Pieces<'_>) -> Vec<Known> {
        let mut names: Vec<(Known, usize, usize)> = Vec::new();
        for (number, component) in pieces.components.iter().enumerate() {
            for &(name, _) in &component.uses {
                match names.iter_mut().find(|(other, _, _)| *other == name) {
                    Some((_, sum, count)) => (*sum, *count) = (*sum + number, *count + 1),
                    None => names.push((name, number, 1)),
                }
            }
        }
        // The mean of the boxes that use a name, in sixtieths to have whole numbers.
        names.sort_by_key(|&(name, sum, count)| (60 * sum / count, name));
        names.into_iter().map(|(name, _, _)| name).collect()
    }
}
