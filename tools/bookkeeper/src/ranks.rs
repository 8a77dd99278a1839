//! The ranks of a text's symbols: those of their lines, or their places in the order line.

use std::collections::HashMap;

use crate::complaint::{Complaint, Place};
use crate::text::{Field, Text};

/// The order line: its place, and its symbols with their places, the greatest first.
pub struct Order {
    pub place: Place,
    pub symbols: Vec<(usize, Place)>,
}

/// Gives every symbol a rank by the order line; complains of those that have two or none.
pub fn give(text: &mut Text, order: Option<Order>) -> Vec<Complaint> {
    let mut faults = twice(text, order.as_ref());
    let symbols = order.iter().flat_map(|order| order.symbols.iter().rev().enumerate());
    for (below, &(number, place)) in symbols {
        let rank = u16::try_from(below).unwrap_or(u16::MAX);
        text.symbols[number].rank.get_or_insert(Field { word: rank, place });
    }
    let without = text.symbols.iter().zip(&text.names.symbols).filter(|(entry, _)| entry.rank.is_none());
    faults.extend(without.map(|(entry, name)| match &order {
        Some(order) => Complaint::at(order.place, format!("`{name}` is not in the order")),
        None => Complaint::at(entry.place, format!("`{name}` has no rank, and there is no line `order`")),
    }));
    faults
}

/// Complaints of symbols in the order that have a rank on their own lines, or stand in the order twice.
fn twice(text: &Text, order: Option<&Order>) -> Vec<Complaint> {
    let mut places = HashMap::new();
    let symbols = order.iter().flat_map(|order| &order.symbols);
    let fault = |&(number, place): &(usize, Place)| {
        let name = &text.names.symbols[number];
        if let Some(rank) = text.symbols[number].rank {
            let text = format!("`{name}` has rank {} already, on line {}", rank.word, rank.place.line);
            return Some(Complaint::at(place, text));
        }
        let first = *places.entry(number).or_insert(place);
        (first != place).then(|| {
            Complaint::at(place, format!("`{name}` stands in the order twice, first at column {}", first.column))
        })
    };
    symbols.filter_map(fault).collect()
}
