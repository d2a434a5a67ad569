//! The archive: writer, and a reader that gives the place of the first broken item.
//!
//! Written from paper 01, "Archive form". Every item of the form is read by one function of
//! [`Reader`], so that the place of a refusal is the start of the item just read.

use crate::model::*;

pub fn write(book: &Book) -> Vec<u8> {
    let mut out = vec![2];
    number(&mut out, book.next_token);
    number(&mut out, book.next_id);
    count(&mut out, book.retained.len());
    for entry in &book.retained {
        write_retained(&mut out, entry);
    }
    count(&mut out, book.queue.len());
    for entry in &book.queue {
        write_optional_number(&mut out, entry.id);
        write_bundle(&mut out, &entry.bundle);
        write_optional_number(&mut out, entry.expiry);
        write_fee_intent(&mut out, &entry.fee_intent);
        out.push(entry.trigger);
        out.push(entry.goal);
    }
    write_ids(&mut out, &book.retirements);
    write_optional_number(&mut out, book.rollback);
    write_ids(&mut out, &book.replayed);
    out
}

fn write_retained(out: &mut Vec<u8>, entry: &Retained) {
    number(out, entry.id);
    for slot in [&entry.live, &entry.set_aside] {
        count(out, usize::from(slot.is_some()));
        if let Some(attempt) = slot {
            write_attempt(out, attempt);
        }
    }
    out.extend_from_slice(&entry.intent);
    write_bundle(out, &entry.base);
    count(out, usize::from(entry.fee.is_some()));
    if let Some((bundle, applied_fee)) = &entry.fee {
        write_bundle(out, bundle);
        number(out, *applied_fee);
    }
    out.push(entry.mark);
    write_fee_intent(out, &entry.fee_intent);
    write_optional_digest(out, &entry.acknowledged);
    out.push(entry.chain);
    write_optional_number(out, entry.expiry);
}

fn number(out: &mut Vec<u8>, value: u64) {
    out.extend_from_slice(&value.to_be_bytes());
}

pub fn count(out: &mut Vec<u8>, value: usize) {
    out.push(u8::try_from(value).expect("a one-byte count"));
}

pub fn write_ids(out: &mut Vec<u8>, ids: &[u64]) {
    count(out, ids.len());
    for id in ids {
        number(out, *id);
    }
}

pub fn write_optional_number(out: &mut Vec<u8>, value: Option<u64>) {
    count(out, usize::from(value.is_some()));
    if let Some(value) = value {
        number(out, value);
    }
}

fn write_optional_digest(out: &mut Vec<u8>, value: &Option<Digest>) {
    count(out, usize::from(value.is_some()));
    if let Some(digest) = value {
        out.extend_from_slice(digest);
    }
}

pub fn write_attempt(out: &mut Vec<u8>, attempt: &Attempt) {
    number(out, attempt.token);
    out.push(attempt.goal);
    out.extend_from_slice(&attempt.drained);
    write_optional_digest(out, &attempt.finalised);
}

pub fn write_fee_intent(out: &mut Vec<u8>, intent: &FeeIntent) {
    match intent {
        FeeIntent::AlreadyPaid => out.push(0),
        FeeIntent::NoFeeConfigured => out.push(1),
        FeeIntent::Attach { target, amount } => {
            out.push(2);
            out.extend_from_slice(target);
            number(out, *amount);
        }
    }
}

pub fn write_bundle(out: &mut Vec<u8>, bundle: &Bundle) {
    count(out, bundle.len());
    for spend in bundle {
        count(out, spend.coin.len());
        out.extend_from_slice(&spend.coin);
        out.extend_from_slice(&spend.digest);
        match &spend.run {
            None => out.push(0),
            Some(outputs) => {
                out.push(1);
                count(out, outputs.len());
                for output in outputs {
                    out.extend_from_slice(&output.puzzle_hash);
                    number(out, output.amount);
                }
            }
        }
    }
}

/// The first item, in order, that is cut short or breaks a rule.
#[derive(Clone, Copy, Debug, PartialEq, Eq)]
pub struct Broken {
    pub place: usize,
    pub item: &'static str,
    pub cut_short: bool,
}

/// Reads a whole archive.
pub fn read(bytes: &[u8]) -> Result<Book, Broken> {
    let mut reader = Reader::new(bytes);
    let book = reader.book()?;
    if reader.at < bytes.len() {
        return Err(reader.breaks(reader.at, "bytes left over"));
    }
    Ok(book)
}

/// The items of a whole archive, each with its place.
pub fn items(bytes: &[u8]) -> Vec<(usize, &'static str)> {
    let mut reader = Reader::new(bytes);
    reader.book().expect("a whole archive");
    reader.items
}

/// Reads parts in the archive's form; also used to take answers of the driver apart.
pub struct Reader<'a> {
    bytes: &'a [u8],
    pub at: usize,
    /// The items met so far.
    items: Vec<(usize, &'static str)>,
}

impl<'a> Reader<'a> {
    pub fn new(bytes: &'a [u8]) -> Reader<'a> {
        Reader { bytes, at: 0, items: Vec::new() }
    }

    fn breaks(&self, place: usize, item: &'static str) -> Broken {
        Broken { place, item, cut_short: false }
    }

    /// One item of `length` bytes.
    pub fn run(&mut self, length: usize, item: &'static str) -> Result<&'a [u8], Broken> {
        let run = self.bytes.get(self.at..self.at + length).ok_or(Broken {
            place: self.at,
            item,
            cut_short: true,
        })?;
        self.items.push((self.at, item));
        self.at += length;
        Ok(run)
    }

    pub fn digest(&mut self, item: &'static str) -> Result<Digest, Broken> {
        Ok(self.run(32, item)?.try_into().expect("32 bytes"))
    }

    pub fn number(&mut self, item: &'static str) -> Result<u64, Broken> {
        let bytes = self.run(8, item)?;
        Ok(u64::from_be_bytes(bytes.try_into().expect("8 bytes")))
    }

    /// A number that a rule is laid on.
    fn number_if(
        &mut self,
        item: &'static str,
        rule: impl FnOnce(u64) -> bool,
    ) -> Result<u64, Broken> {
        let start = self.at;
        let value = self.number(item)?;
        if rule(value) {
            Ok(value)
        } else {
            Err(self.breaks(start, item))
        }
    }

    /// A count or a kind from 0 to `most`.
    pub fn up_to(&mut self, most: usize, item: &'static str) -> Result<u8, Broken> {
        let start = self.at;
        let value = self.run(1, item)?[0];
        if usize::from(value) <= most {
            Ok(value)
        } else {
            Err(self.breaks(start, item))
        }
    }

    fn optional<T>(
        &mut self,
        item: &'static str,
        read: impl FnOnce(&mut Self) -> Result<T, Broken>,
    ) -> Result<Option<T>, Broken> {
        match self.up_to(1, item)? {
            0 => Ok(None),
            _ => read(self).map(Some),
        }
    }

    pub fn optional_number(
        &mut self,
        count: &'static str,
        item: &'static str,
    ) -> Result<Option<u64>, Broken> {
        self.optional(count, |reader| reader.number(item))
    }

    fn optional_digest(
        &mut self,
        count: &'static str,
        item: &'static str,
    ) -> Result<Option<Digest>, Broken> {
        self.optional(count, |reader| reader.digest(item))
    }

    /// An attempt whose token keeps the rule.
    fn attempt_if(&mut self, rule: impl FnOnce(u64) -> bool) -> Result<Attempt, Broken> {
        Ok(Attempt {
            token: self.number_if("attempt token", rule)?,
            goal: self.up_to(1, "attempt goal")?,
            drained: self.digest("drained fingerprint")?,
            finalised: self.optional_digest("finalised count", "finalised fingerprint")?,
        })
    }

    pub fn attempt(&mut self) -> Result<Attempt, Broken> {
        self.attempt_if(|_| true)
    }

    pub fn fee_intent(&mut self) -> Result<FeeIntent, Broken> {
        Ok(match self.up_to(2, "fee intent kind")? {
            0 => FeeIntent::AlreadyPaid,
            1 => FeeIntent::NoFeeConfigured,
            _ => FeeIntent::Attach {
                target: self.digest("fee target")?,
                amount: self.number("fee amount")?,
            },
        })
    }

    /// A bundle. In a base bundle an unreadable run breaks a rule.
    fn bundle_if(&mut self, base: bool) -> Result<Bundle, Broken> {
        let spends = self.up_to(MOST_SPENDS, "spend count")?;
        (0..spends).map(|_| self.spend(base)).collect()
    }

    pub fn bundle(&mut self) -> Result<Bundle, Broken> {
        self.bundle_if(false)
    }

    fn spend(&mut self, base: bool) -> Result<Spend, Broken> {
        let length = self.up_to(LONGEST_COIN, "coin length")?;
        let coin = self.run(usize::from(length), "coin")?.to_vec();
        let digest = self.digest("spend digest")?;
        let start = self.at;
        let run = match self.up_to(1, "run kind")? {
            0 if base => return Err(self.breaks(start, "run kind of a base bundle")),
            0 => None,
            _ => Some(self.outputs()?),
        };
        Ok(Spend { coin, digest, run })
    }

    fn outputs(&mut self) -> Result<Vec<Output>, Broken> {
        let outputs = self.up_to(MOST_OUTPUTS, "output count")?;
        (0..outputs)
            .map(|_| {
                Ok(Output {
                    puzzle_hash: self.digest("output puzzle hash")?,
                    amount: self.number("output amount")?,
                })
            })
            .collect()
    }

    fn book(&mut self) -> Result<Book, Broken> {
        if self.up_to(2, "numbers count")? != 2 {
            return Err(self.breaks(0, "numbers count"));
        }
        let (next_token, next_id) = (self.number("next token")?, self.number("next id")?);
        let mut book = Book::open(next_token, next_id);
        for _ in 0..self.up_to(MOST_RETAINED, "retained count")? {
            let entry = self.retained(&book)?;
            book.retained.push(entry);
        }
        for _ in 0..self.up_to(MOST_QUEUED, "queue count")? {
            book.queue.push(self.queued()?);
        }
        for _ in 0..self.up_to(MOST_RETIREMENTS, "retirements count")? {
            let id = self.number_if("retirement", |id| !book.retirements.contains(&id))?;
            book.retirements.push(id);
        }
        book.rollback = self.optional_number("rollback count", "rollback height")?;
        for _ in 0..self.up_to(MOST_REPLAYED, "replayed count")? {
            let id = self.number_if("replayed id", |id| {
                book.replayed.last().is_none_or(|last| *last < id)
                    && book.retained.iter().any(|entry| entry.id == id)
            })?;
            book.replayed.push(id);
        }
        Ok(book)
    }

    /// A retained submission, behind those that `book` holds already.
    fn retained(&mut self, book: &Book) -> Result<Retained, Broken> {
        let new = |id: u64| book.retained.iter().all(|entry| entry.id != id);
        let id = self.number_if("retained id", new)?;
        let free = |token: u64| {
            token < book.next_token && book.slots().all(|attempt| attempt.token != token)
        };
        let live = self.optional("live count", |reader| reader.attempt_if(free))?;
        let live_token = live.as_ref().map(|attempt| attempt.token);
        let set_aside = self.optional("set-aside count", |reader| {
            reader.attempt_if(|token| free(token) && live_token != Some(token))
        })?;
        Ok(Retained {
            id,
            live,
            set_aside,
            intent: self.digest("intent fingerprint")?,
            base: self.bundle_if(true)?,
            fee: self.optional("fee bundle count", |reader| {
                Ok((reader.bundle()?, reader.number("applied fee")?))
            })?,
            mark: self.up_to(2, "durable mark")?,
            fee_intent: self.fee_intent()?,
            acknowledged: self.optional_digest("acknowledged count", "acknowledged fingerprint")?,
            chain: self.up_to(2, "chain")?,
            expiry: self.optional_number("expiry count", "expiry")?,
        })
    }

    fn queued(&mut self) -> Result<Queued, Broken> {
        Ok(Queued {
            id: self.optional_number("queue id count", "queue id")?,
            bundle: self.bundle()?,
            expiry: self.optional_number("expiry count", "expiry")?,
            fee_intent: self.fee_intent()?,
            trigger: self.up_to(3, "trigger")?,
            goal: self.up_to(1, "goal")?,
        })
    }
}
