//! Three guards over a table of 52 cards, written by hand: what `bench/values` compares `play` with.
//!
//! Given the name of a guard and a number, it counts so many times the cards of each hand for which the guard holds, and
//! writes how many they are together and the nanoseconds that it took.
use std::env;
use std::hint::black_box;
use std::process::ExitCode;
use std::time::Instant;

#[derive(Clone, Copy)]
struct Card {
    height: u8,
    suit: u8,
}

struct Table {
    hands: [Vec<Card>; 4],
    trick: Vec<Card>,
    lead: Option<Card>,
}

/// Deals three cards to each player, twice.
fn deal(stock: &mut Vec<Card>, hands: &mut [Vec<Card>; 4]) {
    for _ in 0..2 {
        for hand in hands.iter_mut() {
            for _ in 0..3 {
                hand.extend(stock.pop());
            }
        }
    }
}

/// The table of the sheets in `bench/values`.
fn table() -> Table {
    let suits = |height| (0..4).map(move |suit| Card { height, suit });
    let mut stock: Vec<Card> = (2..=14).flat_map(suits).collect();
    let mut hands = [const { Vec::new() }; 4];
    let mut trick = Vec::new();
    deal(&mut stock, &mut hands);
    for _ in 0..4 {
        trick.extend(stock.pop());
    }
    deal(&mut stock, &mut hands);
    let lead = trick.first().copied();
    Table { hands, trick, lead }
}

/// Whether a player may play a card: one of the suit that was led, or any where he has none.
fn follows(table: &Table, player: usize, card: Card) -> bool {
    let Some(lead) = table.lead else {
        return true;
    };
    card.suit == lead.suit
        || !table.hands[player]
            .iter()
            .any(|other| other.suit == lead.suit)
}

/// Whether a player's hand is worth more than 96.
fn is_rich(table: &Table, player: usize, _card: Card) -> bool {
    let worth: i32 = table.hands[player]
        .iter()
        .map(|card| i32::from(card.height))
        .sum();
    worth > 96
}

/// Whether a card is worth more than the largest one of the trick.
fn beats(table: &Table, _player: usize, card: Card) -> bool {
    let largest = table.trick.iter().map(|card| card.height).max();
    card.height > largest.unwrap_or(0)
}

fn always(_table: &Table, _player: usize, _card: Card) -> bool {
    true
}

fn count(rounds: u64, guard: impl Fn(&Table, usize, Card) -> bool) {
    let table = table();
    let mut held = 0;
    let begin = Instant::now();
    for _ in 0..rounds {
        for (player, hand) in table.hands.iter().enumerate() {
            // Each guard is evaluated for each card anew.
            held += hand
                .iter()
                .filter(|card| black_box(guard(black_box(&table), player, **card)))
                .count();
        }
    }
    println!("{held} {}", begin.elapsed().as_nanos());
}

fn main() -> ExitCode {
    let words: Vec<String> = env::args().skip(1).collect();
    let [name, rounds] = words.as_slice() else {
        return ExitCode::FAILURE;
    };
    let Ok(rounds) = rounds.parse() else {
        return ExitCode::FAILURE;
    };
    match name.as_str() {
        "follows" => count(rounds, follows),
        "rich" => count(rounds, is_rich),
        "beats" => count(rounds, beats),
        "always" => count(rounds, always),
        _ => return ExitCode::FAILURE,
    }
    ExitCode::SUCCESS
}
