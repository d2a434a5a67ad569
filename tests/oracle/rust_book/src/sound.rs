//! Paper 01's *Sound*, on plain data. Cells do not occur there, so the rule on unused cells is
//! the door's.

use crate::model::*;

fn bundle_in_range(bundle: &Bundle) -> bool {
    bundle.len() <= MOST_SPENDS
        && bundle.iter().all(|spend| {
            spend.coin.len() <= LONGEST_COIN
                && spend.run.as_ref().is_none_or(|run| run.len() <= MOST_OUTPUTS)
        })
}

fn distinct<T: PartialEq>(items: &[T]) -> bool {
    (1..items.len()).all(|at| !items[..at].contains(&items[at]))
}

/// The first rule that the book breaks, or none.
pub fn broken_rule(book: &Book) -> Option<&'static str> {
    let ids: Vec<u64> = book.retained.iter().map(|entry| entry.id).collect();
    let tokens: Vec<u64> = book.slots().map(|attempt| attempt.token).collect();
    let ranges = book.retained.iter().all(|entry| {
        bundle_in_range(&entry.base)
            && entry.fee.as_ref().is_none_or(|(bundle, _)| bundle_in_range(bundle))
            && entry.mark <= 2
            && entry.chain <= 2
    }) && book.slots().all(|attempt| attempt.goal <= 1)
        && book
            .queue
            .iter()
            .all(|entry| bundle_in_range(&entry.bundle) && entry.trigger <= 3 && entry.goal <= 1);
    let rules = [
        (!book.over_full() && book.replayed.len() <= MOST_REPLAYED, "a list is too long"),
        (ranges, "a part is out of its range"),
        (distinct(&ids), "a retained id occurs twice"),
        (distinct(&tokens), "a slot token occurs twice"),
        (tokens.iter().all(|token| *token < book.next_token), "a slot token is not issued yet"),
        (book.retained.iter().all(|entry| readable(&entry.base)), "a base bundle is unreadable"),
        (distinct(&book.retirements), "a retirement occurs twice"),
        (book.replayed.iter().all(|id| ids.contains(id)), "a replayed id is not retained"),
        (book.replayed.windows(2).all(|pair| pair[0] < pair[1]), "replayed ids do not rise"),
    ];
    rules.iter().find(|(kept, _)| !kept).map(|(_, rule)| *rule)
}
