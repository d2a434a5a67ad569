//! Plays a script on the Rust book.

use crate::call::Outcome;
use crate::model::Book;
use crate::rules;
use crate::script::{output, Script, BROKEN};

/// One call as it went: what was answered, the book behind it, the bytes put out.
pub struct Step {
    pub outcome: Outcome,
    pub after: Book,
    pub output: Vec<u8>,
}

/// Makes the calls of a script one by one.
pub fn steps(script: &Script) -> Vec<Step> {
    let mut book = Book::open(script.next_token, script.next_id);
    let mut steps = Vec::with_capacity(script.calls.len());
    for call in &script.calls {
        let outcome = rules::make(&mut book, call);
        let output = output(call, &outcome, &book);
        steps.push(Step { outcome, after: book.clone(), output });
    }
    steps
}

/// The bytes that the driver writes for a script.
pub fn play(bytes: &[u8]) -> Vec<u8> {
    let Some(script) = Script::parse(bytes) else {
        return vec![BROKEN];
    };
    let mut out: Vec<u8> = steps(&script).into_iter().flat_map(|step| step.output).collect();
    if !script.tail.is_empty() {
        out.push(BROKEN);
    }
    out
}
