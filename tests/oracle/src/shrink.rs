//! Makes a script that shows a difference smaller, as long as it still shows one.

use rust_book::archive;
use rust_book::call::Call;
use rust_book::door;
use rust_book::model::*;
use rust_book::play::steps;
use rust_book::script::Script;

use crate::generate::damage::{bundle_cells, fee_cells};

/// Runs of the driver that one shrinking may take.
const MOST_TRIES: usize = 3000;

struct Search<F> {
    differs: F,
    tries: usize,
}

impl<F: Fn(&[u8]) -> bool> Search<F> {
    fn still(&mut self, script: &Script) -> bool {
        self.tries += 1;
        self.tries <= MOST_TRIES && (self.differs)(&script.bytes())
    }
}

pub fn shrink(script: &Script, differs: impl Fn(&[u8]) -> bool) -> Script {
    let mut search = Search { differs, tries: 0 };
    let mut best = script.clone();
    cut_behind(&mut search, &mut best);
    start_from_archive(&mut search, &mut best);
    loop {
        let size = best.bytes().len();
        drop_calls(&mut search, &mut best);
        simplify_calls(&mut search, &mut best);
        if best.bytes().len() >= size || search.tries > MOST_TRIES {
            return best;
        }
    }
}

/// Leaves out what follows the first call that differs.
fn cut_behind<F: Fn(&[u8]) -> bool>(search: &mut Search<F>, best: &mut Script) {
    for length in 0..=best.calls.len() {
        let mut shorter = best.clone();
        shorter.calls.truncate(length);
        shorter.tail.clear();
        if search.still(&shorter) {
            *best = shorter;
            return;
        }
    }
}

/// The book before the last call read in from its archive, in place of the calls before it.
fn start_from_archive<F: Fn(&[u8]) -> bool>(search: &mut Search<F>, best: &mut Script) {
    let Some(last) = best.calls.last() else {
        return;
    };
    let Some(before) = best.calls.len().checked_sub(2).map(|at| steps(best).swap_remove(at).after)
    else {
        return;
    };
    let bytes = archive::write(&before);
    let shorter = Script { calls: vec![Call::ReadArchive { bytes }, last.clone()], ..best.clone() };
    if search.still(&shorter) {
        *best = shorter;
    }
}

fn drop_calls<F: Fn(&[u8]) -> bool>(search: &mut Search<F>, best: &mut Script) {
    for at in (0..best.calls.len()).rev() {
        let mut shorter = best.clone();
        shorter.calls.remove(at);
        if search.still(&shorter) {
            *best = shorter;
        }
    }
}

fn simplify_calls<F: Fn(&[u8]) -> bool>(search: &mut Search<F>, best: &mut Script) {
    for at in 0..best.calls.len() {
        let mut again = true;
        while again {
            again = false;
            for simpler in simpler_calls(&best.calls[at]) {
                let mut script = best.clone();
                script.calls[at] = simpler;
                if script != *best && search.still(&script) {
                    *best = script;
                    again = true;
                    break;
                }
            }
        }
    }
}

/// Each list with one element left out.
fn one_less<T: Clone>(items: &[T]) -> Vec<Vec<T>> {
    let without = |at: usize| {
        let mut fewer = items.to_vec();
        fewer.remove(at);
        fewer
    };
    (0..items.len()).map(without).collect()
}

fn simpler_bundles(bundle: &Bundle) -> Vec<Bundle> {
    let mut simpler = one_less(bundle);
    for (at, spend) in bundle.iter().enumerate() {
        let mut with = |spend: Spend| {
            let mut copy = bundle.clone();
            copy[at] = spend;
            simpler.push(copy);
        };
        if !spend.coin.is_empty() {
            with(Spend { coin: Vec::new(), ..spend.clone() });
        }
        if spend.digest != [0; 32] {
            with(Spend { digest: [0; 32], ..spend.clone() });
        }
        for run in spend.run.iter().flat_map(|run| one_less(run)) {
            with(Spend { run: Some(run), ..spend.clone() });
        }
    }
    simpler
}

fn simpler_coins(bytes: &[u8]) -> Vec<Vec<u8>> {
    let coins = door::coin_list(bytes).unwrap_or_default();
    one_less(&coins).iter().map(|fewer| door::write_coin_list(fewer)).collect()
}

fn simpler_coin_ids(bytes: &[u8]) -> Vec<Vec<u8>> {
    let ids: Vec<&[u8]> = bytes.chunks(32).collect();
    one_less(&ids).iter().map(|fewer| fewer.concat()).collect()
}

fn simpler_calls(call: &Call) -> Vec<Call> {
    let copies = |changes: Vec<Box<dyn Fn(&mut Call)>>| -> Vec<Call> {
        let changed = |change: &dyn Fn(&mut Call)| {
            let mut copy = call.clone();
            change(&mut copy);
            copy
        };
        changes.iter().map(|change| changed(change.as_ref())).collect()
    };
    match call {
        Call::ReadArchive { bytes } => match archive::read(bytes) {
            Ok(book) => simpler_books(&book)
                .iter()
                .map(|book| Call::ReadArchive { bytes: archive::write(book) })
                .collect(),
            Err(_) => Vec::new(),
        },
        Call::Queue { bundle: cells, fee_intent: fee, .. } => {
            let mut changes: Vec<Box<dyn Fn(&mut Call)>> = Vec::new();
            for simpler in simpler_bundles(&door::bundle(cells).unwrap_or_default()) {
                let cells = bundle_cells(&simpler);
                changes.push(Box::new(move |call| {
                    if let Call::Queue { bundle, .. } = call {
                        *bundle = cells.clone();
                    }
                }));
            }
            let paid = fee_cells(&FeeIntent::AlreadyPaid);
            if *fee != paid {
                changes.push(Box::new(move |call| {
                    if let Call::Queue { fee_intent, .. } = call {
                        *fee_intent = paid.clone();
                    }
                }));
            }
            copies(changes)
        }
        Call::FinalizeAttempt { token, source, bundle } => {
            simpler_bundles(&door::bundle(bundle).unwrap_or_default())
                .iter()
                .map(|simpler| Call::FinalizeAttempt {
                    token: *token,
                    source: *source,
                    bundle: bundle_cells(simpler),
                })
                .collect()
        }
        Call::QueueRebroadcastEpoch { ids, trigger } => one_less(ids)
            .into_iter()
            .map(|ids| Call::QueueRebroadcastEpoch { ids, trigger: *trigger })
            .collect(),
        Call::RetainSubmitted { ids } => {
            one_less(ids).into_iter().map(|ids| Call::RetainSubmitted { ids }).collect()
        }
        Call::CollectRollbackReplayIds { ids } => {
            one_less(ids).into_iter().map(|ids| Call::CollectRollbackReplayIds { ids }).collect()
        }
        Call::ReconciliationInputCoins { landed, buffer } => simpler_coins(landed)
            .into_iter()
            .map(|landed| Call::ReconciliationInputCoins { landed, buffer: *buffer })
            .collect(),
        Call::AbsentOutputsForIds { ids, absent, buffer } => simpler_coins(absent)
            .into_iter()
            .map(|absent| Call::AbsentOutputsForIds { ids: ids.clone(), absent, buffer: *buffer })
            .chain(one_less(ids).into_iter().map(|ids| Call::AbsentOutputsForIds {
                ids,
                absent: absent.clone(),
                buffer: *buffer,
            }))
            .collect(),
        Call::CausallyRolledBackIds { absent, live_inputs } => {
            let fewer_coins = simpler_coins(absent).into_iter().map(|absent| {
                let live_inputs = live_inputs.clone();
                Call::CausallyRolledBackIds { absent, live_inputs }
            });
            let fewer_inputs = simpler_coin_ids(live_inputs).into_iter().map(|live_inputs| {
                let absent = absent.clone();
                Call::CausallyRolledBackIds { absent, live_inputs }
            });
            fewer_coins.chain(fewer_inputs).collect()
        }
        Call::ReconcileChainTerminality { observed, spent, reorg, ids } => {
            let make = |observed: &Vec<u8>, spent: &Vec<u8>, ids: &Vec<u64>| {
                Call::ReconcileChainTerminality {
                    observed: observed.clone(),
                    spent: spent.clone(),
                    reorg: *reorg,
                    ids: ids.clone(),
                }
            };
            let mut simpler: Vec<Call> = Vec::new();
            simpler.extend(simpler_coins(observed).iter().map(|fewer| make(fewer, spent, ids)));
            simpler.extend(simpler_coin_ids(spent).iter().map(|fewer| make(observed, fewer, ids)));
            simpler.extend(one_less(ids).iter().map(|fewer| make(observed, spent, fewer)));
            simpler
        }
        _ => Vec::new(),
    }
}

fn simpler_books(book: &Book) -> Vec<Book> {
    let mut simpler = Vec::new();
    let mut with = |change: &dyn Fn(&mut Book)| {
        let mut copy = book.clone();
        change(&mut copy);
        let held: Vec<u64> = copy.retained.iter().map(|entry| entry.id).collect();
        copy.replayed.retain(|id| held.contains(id));
        if copy != *book {
            simpler.push(copy);
        }
    };
    with(&|book| book.retirements.clear());
    with(&|book| book.replayed.clear());
    with(&|book| book.rollback = None);
    for at in 0..book.retained.len() {
        with(&|book| {
            book.retained.remove(at);
        });
        with(&|book| book.retained[at].live = None);
        with(&|book| book.retained[at].set_aside = None);
        with(&|book| book.retained[at].fee = None);
        with(&|book| book.retained[at].acknowledged = None);
        with(&|book| book.retained[at].expiry = None);
        with(&|book| book.retained[at].chain = ACTIVE);
        for base in simpler_bundles(&book.retained[at].base) {
            with(&|book| book.retained[at].base = base.clone());
        }
    }
    for at in 0..book.queue.len() {
        with(&|book| {
            book.queue.remove(at);
        });
        with(&|book| book.queue[at].expiry = None);
        for bundle in simpler_bundles(&book.queue[at].bundle) {
            with(&|book| book.queue[at].bundle = bundle.clone());
        }
    }
    for at in 0..book.retirements.len() {
        with(&|book| {
            book.retirements.remove(at);
        });
    }
    simpler
}
