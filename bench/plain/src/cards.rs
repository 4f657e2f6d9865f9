//! Cards, and how they are written.

use std::fmt;

pub const RANKS: &str = "A23456789TJQK";
pub const SUITS: &str = "CDHS";
pub const JACK: u8 = 10;

/// A card: its rank, from 0 for the ace to 12 for the king, and its suit. Cards are ordered by rank, then by suit.
#[derive(Clone, Copy, PartialEq, Eq, PartialOrd, Ord, Hash)]
pub struct Card {
    pub rank: u8,
    pub suit: u8,
}

impl Card {
    /// Returns the card that a word names.
    pub fn read(word: &str) -> Option<Card> {
        let mut letters = word.chars();
        let rank = RANKS.find(letters.next()?)? as u8;
        let suit = SUITS.find(letters.next()?)? as u8;
        letters.next().is_none().then_some(Card { rank, suit })
    }
}

impl fmt::Display for Card {
    fn fmt(&self, to: &mut fmt::Formatter) -> fmt::Result {
        let rank = RANKS.as_bytes()[self.rank as usize] as char;
        let suit = SUITS.as_bytes()[self.suit as usize] as char;
        write!(to, "{rank}{suit}")
    }
}

/// Returns the 52 cards in their order.
pub fn deck() -> impl Iterator<Item = Card> {
    (0..13).flat_map(|rank| (0..4).map(move |suit| Card { rank, suit }))
}

/// Returns what a rank counts.
pub fn value(rank: u8) -> u8 {
    (rank + 1).min(10)
}

/// Returns some cards with a space between them.
pub fn words(cards: &[Card]) -> String {
    let words: Vec<String> = cards.iter().map(Card::to_string).collect();
    words.join(" ")
}
