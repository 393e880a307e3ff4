//! Chains and rings among the cards of a run: where the links by one field lead to
//! null, and one block holds them all, and where they lead back.

use crate::cards::{Card, Cards};
use std::fmt::Write;

/// What the link of a card by one of its fields is a part of.
#[derive(Clone, Copy, Debug, PartialEq, Eq)]
pub enum Part {
    /// A chain, of which this open block holds every link to the end.
    Chain(usize),
    /// A ring.
    Ring,
}

/// The cards from one on by the links of a field, from 0, and whether they lead to
/// null; else the last one leads to a card that was passed.
pub fn walk(cards: &Cards, from: usize, slot: usize) -> (Vec<usize>, bool) {
    let mut passed = vec![from];
    while let Some(next) = next(cards, passed[passed.len() - 1], slot) {
        if passed.contains(&next) {
            return (passed, false);
        }
        passed.push(next);
    }
    (passed, true)
}

/// The card that a link leads to.
fn next(cards: &Cards, card: usize, slot: usize) -> Option<usize> {
    let field = &cards.cards[card].fields[slot];
    usize::try_from(field.value).ok()?.checked_sub(1)
}

/// The block that holds both halves of a field.
fn whole(cards: &Cards, card: usize, slot: usize) -> Option<usize> {
    match cards.cards[card].fields[slot].halves[..] {
        [(frame, 2)] => Some(frame),
        _ => None,
    }
}

/// Do the links by the field lead from the card back to it?
pub fn in_ring(cards: &Cards, card: usize, slot: usize) -> bool {
    let link = &cards.cards[card].fields[slot];
    let (passed, ends) = walk_of(cards, card, slot).unwrap_or_default();
    let last = passed.last();
    link.own && !ends && last.and_then(|&last| next(cards, last, slot)) == Some(card)
}

/// The walk, if a chain may go by the field.
fn walk_of(cards: &Cards, card: usize, slot: usize) -> Option<(Vec<usize>, bool)> {
    let own = cards.cards[card].fields[slot].own;
    own.then(|| walk(cards, card, slot))
}

/// What a link is a part of.
pub fn part(cards: &Cards, card: usize, slot: usize) -> Option<Part> {
    let (passed, ends) = walk_of(cards, card, slot)?;
    if in_ring(cards, card, slot) {
        return Some(Part::Ring);
    }
    let holder = whole(cards, card, slot).filter(|_| ends)?;
    let held = |&card: &usize| whole(cards, card, slot) == Some(holder);
    passed.iter().all(held).then_some(Part::Chain(holder))
}

/// Does a link of the same chain lead to the card?
fn is_followed(cards: &Cards, card: usize, slot: usize) -> bool {
    let same = |other: &usize| cards.cards[*other].class == cards.cards[card].class;
    let others = (0..cards.cards.len()).filter(same);
    let mut leads = others.filter(|&other| next(cards, other, slot) == Some(card));
    leads.any(|other| part(cards, other, slot) == part(cards, card, slot))
}

/// The marks of a card: each ring that it is in, and each chain of two cards or
/// more that begins with it.
pub fn marks(cards: &Cards, at: usize) -> Vec<String> {
    let Card { fields, .. } = &cards.cards[at];
    let mark = |(slot, field): (usize, &crate::cards::Field)| {
        let name = &field.name;
        match part(cards, at, slot)? {
            Part::Ring => Some(format!("ring by {name}")),
            Part::Chain(_) if field.value == 0 || is_followed(cards, at, slot) => None,
            Part::Chain(_) => Some(format!("chain by {name}")),
        }
    };
    fields.iter().enumerate().filter_map(mark).collect()
}

/// A line for each ring: its cards in order, the first once more at the end.
pub fn table(cards: &Cards) -> String {
    let mut out = String::new();
    for (at, card) in cards.cards.iter().enumerate() {
        for (slot, field) in card.fields.iter().enumerate() {
            let ring = in_ring(cards, at, slot).then(|| walk(cards, at, slot).0);
            let passed = ring.unwrap_or_default();
            if !passed.is_empty() && passed.iter().all(|&card| card >= at) {
                let ring = passed.iter().chain([&at]);
                let ring: Vec<String> = ring.map(|card| format!("object {}", card + 1)).collect();
                let _ = writeln!(out, "  ring by {}: {}", field.name, ring.join(", "));
            }
        }
    }
    out
}
