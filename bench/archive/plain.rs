//! A plain reader and writer of the archive, written from docs/ARCHIVE.md.

pub type Hash = [u8; 32];

pub struct Spend {
    coin: Vec<u8>,
    digest: Hash,
    run: Option<Vec<(Hash, u64)>>,
}

pub enum Fee {
    Kind(u8),
    Attach(Hash, u64),
}

pub struct Attempt {
    token: u64,
    goal: u8,
    drained: Hash,
    finalized: Option<Hash>,
}

pub struct Submission {
    id: u64,
    slots: [Option<Attempt>; 2],
    intent: Hash,
    base: Vec<Spend>,
    fee_bundle: Option<(Vec<Spend>, u64)>,
    durable: u8,
    fee: Fee,
    acknowledged: Option<Hash>,
    chain: u8,
    expiry: Option<u64>,
}

pub struct Entry {
    id: Option<u64>,
    bundle: Vec<Spend>,
    expiry: Option<u64>,
    fee: Fee,
    trigger: u8,
    goal: u8,
}

pub struct Book {
    numbers: [u64; 2],
    retained: Vec<Submission>,
    queue: Vec<Entry>,
    retired: Vec<u64>,
    height: Option<u64>,
    replayed: Vec<u64>,
}

/// The bytes and a position; a refusal is the place of the broken item.
struct Reader<'a> {
    bytes: &'a [u8],
    at: usize,
}

type Read<T> = Result<T, usize>;

impl<'a> Reader<'a> {
    fn run(&mut self, n: usize) -> Read<&'a [u8]> {
        let run = self.bytes.get(self.at..self.at + n).ok_or(self.at)?;
        self.at += n;
        Ok(run)
    }

    fn number(&mut self) -> Read<u64> {
        Ok(u64::from_be_bytes(self.run(8)?.try_into().unwrap()))
    }

    fn hash(&mut self) -> Read<Hash> {
        Ok(self.run(32)?.try_into().unwrap())
    }

    fn count(&mut self, most: u8) -> Read<u8> {
        let start = self.at;
        let n = self.run(1)?[0];
        if n <= most { Ok(n) } else { Err(start) }
    }

    fn optional<T>(&mut self, part: impl FnOnce(&mut Self) -> Read<T>) -> Read<Option<T>> {
        if self.count(1)? == 0 { Ok(None) } else { part(self).map(Some) }
    }

    fn many<T>(&mut self, most: u8, mut part: impl FnMut(&mut Self) -> Read<T>) -> Read<Vec<T>> {
        (0..self.count(most)?).map(|_| part(self)).collect()
    }

    /// A number that passes a test.
    fn checked(&mut self, test: impl FnOnce(u64) -> bool) -> Read<u64> {
        let start = self.at;
        let n = self.number()?;
        if test(n) { Ok(n) } else { Err(start) }
    }

    fn bundle(&mut self, base: bool) -> Read<Vec<Spend>> {
        self.many(4, |r| {
            let length = r.count(73)?;
            let coin = r.run(length.into())?.to_vec();
            let digest = r.hash()?;
            let start = r.at;
            let run = r.optional(|r| r.many(4, |r| Ok((r.hash()?, r.number()?))))?;
            if base && run.is_none() { Err(start) } else { Ok(Spend { coin, digest, run }) }
        })
    }

    fn fee(&mut self) -> Read<Fee> {
        match self.count(2)? {
            2 => Ok(Fee::Attach(self.hash()?, self.number()?)),
            kind => Ok(Fee::Kind(kind)),
        }
    }

    fn attempt(&mut self, next: u64, held: &mut Vec<u64>) -> Read<Option<Attempt>> {
        self.optional(|r| {
            let token = r.checked(|t| t < next && !held.contains(&t))?;
            held.push(token);
            Ok(Attempt { token, goal: r.count(1)?, drained: r.hash()?, finalized: r.optional(Self::hash)? })
        })
    }

    fn submission(&mut self, next: u64, ids: &mut Vec<u64>, held: &mut Vec<u64>) -> Read<Submission> {
        let id = self.checked(|i| !ids.contains(&i))?;
        ids.push(id);
        Ok(Submission {
            id,
            slots: [self.attempt(next, held)?, self.attempt(next, held)?],
            intent: self.hash()?,
            base: self.bundle(true)?,
            fee_bundle: self.optional(|r| Ok((r.bundle(false)?, r.number()?)))?,
            durable: self.count(2)?,
            fee: self.fee()?,
            acknowledged: self.optional(Self::hash)?,
            chain: self.count(2)?,
            expiry: self.optional(Self::number)?,
        })
    }

    fn entry(&mut self) -> Read<Entry> {
        Ok(Entry {
            id: self.optional(Self::number)?,
            bundle: self.bundle(false)?,
            expiry: self.optional(Self::number)?,
            fee: self.fee()?,
            trigger: self.count(3)?,
            goal: self.count(1)?,
        })
    }
}

pub fn read(bytes: &[u8]) -> Read<Book> {
    let mut r = Reader { bytes, at: 0 };
    if r.run(1)?[0] != 2 {
        return Err(0);
    }
    let numbers = [r.number()?, r.number()?];
    let (mut ids, mut held, mut gone) = (Vec::new(), Vec::new(), Vec::new());
    let retained = r.many(16, |r| r.submission(numbers[0], &mut ids, &mut held))?;
    let queue = r.many(16, Reader::entry)?;
    let retired = r.many(64, |r| {
        let id = r.checked(|i| !gone.contains(&i))?;
        gone.push(id);
        Ok(id)
    })?;
    let height = r.optional(Reader::number)?;
    let mut last = None;
    let replayed = r.many(16, |r| {
        let id = r.checked(|i| last.is_none_or(|l| l < i) && ids.contains(&i))?;
        last = Some(id);
        Ok(id)
    })?;
    if r.at < bytes.len() {
        return Err(r.at);
    }
    Ok(Book { numbers, retained, queue, retired, height, replayed })
}

struct Writer(Vec<u8>);

impl Writer {
    fn number(&mut self, n: &u64) {
        self.0.extend_from_slice(&n.to_be_bytes());
    }

    fn hash(&mut self, h: &Hash) {
        self.0.extend_from_slice(h);
    }

    fn optional<T>(&mut self, part: &Option<T>, write: impl FnOnce(&mut Self, &T)) {
        self.0.push(part.is_some() as u8);
        if let Some(value) = part {
            write(self, value);
        }
    }

    fn many<T>(&mut self, parts: &[T], write: impl Fn(&mut Self, &T)) {
        self.0.push(parts.len() as u8);
        for part in parts {
            write(self, part);
        }
    }

    fn bundle(&mut self, bundle: &[Spend]) {
        self.many(bundle, |w, spend| {
            w.0.push(spend.coin.len() as u8);
            w.0.extend_from_slice(&spend.coin);
            w.hash(&spend.digest);
            w.optional(&spend.run, |w, outputs| {
                w.many(outputs, |w, (hash, amount)| {
                    w.hash(hash);
                    w.number(amount);
                });
            });
        });
    }

    fn fee(&mut self, fee: &Fee) {
        match fee {
            Fee::Kind(kind) => self.0.push(*kind),
            Fee::Attach(target, amount) => {
                self.0.push(2);
                self.hash(target);
                self.number(amount);
            }
        }
    }

    fn submission(&mut self, s: &Submission) {
        self.number(&s.id);
        for slot in &s.slots {
            self.optional(slot, |w, a| {
                w.number(&a.token);
                w.0.push(a.goal);
                w.hash(&a.drained);
                w.optional(&a.finalized, Self::hash);
            });
        }
        self.hash(&s.intent);
        self.bundle(&s.base);
        self.optional(&s.fee_bundle, |w, (bundle, applied)| {
            w.bundle(bundle);
            w.number(applied);
        });
        self.0.push(s.durable);
        self.fee(&s.fee);
        self.optional(&s.acknowledged, Self::hash);
        self.0.push(s.chain);
        self.optional(&s.expiry, Self::number);
    }

    fn entry(&mut self, e: &Entry) {
        self.optional(&e.id, Self::number);
        self.bundle(&e.bundle);
        self.optional(&e.expiry, Self::number);
        self.fee(&e.fee);
        self.0.push(e.trigger);
        self.0.push(e.goal);
    }
}

pub fn write(book: &Book, room: usize) -> Vec<u8> {
    let mut w = Writer(Vec::with_capacity(room));
    w.0.push(2);
    book.numbers.iter().for_each(|n| w.number(n));
    w.many(&book.retained, Writer::submission);
    w.many(&book.queue, Writer::entry);
    w.many(&book.retired, Writer::number);
    w.optional(&book.height, Writer::number);
    w.many(&book.replayed, Writer::number);
    w.0
}
