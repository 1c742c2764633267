//! Stacks, slots, and how slots change, in words and in JSON.

use crate::json::Json;

/// Numbers in brackets, the middle of many left out.
pub fn list(items: &[u64]) -> String {
    const FIRST: usize = 3;
    const LAST: usize = 6;
    let joined = |items: &[u64]| {
        items
            .iter()
            .map(u64::to_string)
            .collect::<Vec<_>>()
            .join(", ")
    };
    if items.len() <= FIRST + LAST + 3 {
        return format!("[{}]", joined(items));
    }
    let (first, rest) = items.split_at(FIRST);
    let (middle, last) = rest.split_at(rest.len() - LAST);
    format!(
        "[{}, ..{} more.., {}]",
        joined(first),
        middle.len(),
        joined(last)
    )
}

/// A slot that differs: its number, what it was if it was used, and what it is.
pub struct Change {
    pub slot: usize,
    pub before: Option<u64>,
    pub after: u64,
}

/// The slots that differ. A slot that is added counts where it isn't 0.
pub fn changes(before: &[u64], after: &[u64]) -> Vec<Change> {
    let slots = after.iter().enumerate().map(|(slot, &value)| Change {
        slot,
        before: before.get(slot).copied(),
        after: value,
    });
    slots
        .filter(|change| change.before.unwrap_or(0) != change.after)
        .collect()
}

/// As `slot 0: 50 -> 75`, with the used length where that grows; not all of very many.
pub fn changes_in_words(before: &[u64], after: &[u64]) -> String {
    const MOST: usize = 4;
    let changed = changes(before, after);
    let mut words: Vec<String> = changed
        .iter()
        .take(MOST)
        .map(|change| {
            let was = change
                .before
                .map_or("unused".to_string(), |value| value.to_string());
            format!("slot {}: {was} -> {}", change.slot, change.after)
        })
        .collect();
    if changed.len() > MOST {
        words.push(format!("{} more", changed.len() - MOST));
    }
    if after.len() > before.len() {
        words.push(format!("slots used: {} -> {}", before.len(), after.len()));
    }
    words.join(", ")
}

pub fn changes_json(before: &[u64], after: &[u64]) -> Json {
    let changed = changes(before, after).into_iter();
    let members = changed.map(|change| {
        Json::Object(vec![
            ("slot", change.slot.into()),
            ("before", change.before.into()),
            ("after", change.after.into()),
        ])
    });
    Json::List(members.collect())
}
