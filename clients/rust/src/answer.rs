//! What answers say: values and errors.

use std::{fmt, iter::Peekable, process::ExitStatus, str::Split, time::Duration};

/// What a call returns.
pub type Result<T> = std::result::Result<T, Error>;

/// The words of an answer that aren't read yet. A colon is a word too.
type Words<'a> = Peekable<Split<'a, char>>;
pub(crate) struct Rest(String); // all that are left

pub(crate) trait Read: Sized {
    fn read(words: &mut Words) -> Option<Self>;
}

macro_rules! readable {
    ($($words:pat => $kind:ty: $value:expr;)*) => { $(
        impl Read for $kind {
            fn read($words: &mut Words) -> Option<Self> { $value }
        }
    )* };
}

/// Makes values, which are read field by field, and have fixed words before some fields.
macro_rules! values {
    ($($name:ident { $($($fixed:literal)? $field:ident: $kind:ty),* } $text:literal)*) => { $(
        #[doc = $text]
        #[derive(Clone, Debug, PartialEq, Eq)]
        pub struct $name { $(pub $field: $kind),* }

        readable! { words => $name: Some(Self { $($field: {
            $(words.next_if_eq(&$fixed)?;)?
            Read::read(words)?
        }),* }); }
    )* };
}

/// Makes an enum whose variants have a text each, which documents and displays them.
macro_rules! explained {
    ($(#[$doc:meta])* $enum:ident { $($name:ident $({ $($field:ident: $kind:ty),* })? $text:literal)* }) => {
        $(#[$doc])*
        #[derive(Clone, Debug, PartialEq, Eq)]
        #[non_exhaustive]
        pub enum $enum { $(#[doc = $text] $name $({ $($field: $kind),* })?,)* }

        impl fmt::Display for $enum {
            #[allow(unused_variables)]
            fn fmt(&self, to: &mut fmt::Formatter<'_>) -> fmt::Result {
                match self { $(Self::$name $({ $($field),* })? => write!(to, $text),)* }
            }
        }
    };
}

/// Makes refusals, which are read by their first word.
macro_rules! refusals {
    ($($word:literal $name:ident $({ $($field:ident: $kind:ty),* })? $text:literal)*) => {
        explained! {
            /// Why the pool refuses a change. Places are numbers from 0.
            Refusal {
                $($name $({ $($field: $kind),* })? $text)*
                Adopt { transaction: String, cause: Box<Refusal> } "transaction '{transaction}' isn't valid: {cause}"
                Other { words: String } "{words}"
            }
        }

        readable! { words => Refusal: Some(match String::read(words)?.as_str() {
            $($word => Self::$name $({ $($field: Read::read(words)?),* })?,)*
            "adopt" => Self::Adopt { transaction: Read::read(words)?, cause: Box::new(Read::read(words)?) },
            word => Self::Other { words: [word, &Rest::read(words)?.0].join(" ") },
        }); }
    };
}

readable! {
    _ => (): Some(());
    words => u64: words.next().filter(|it| it.bytes().all(|it| it.is_ascii_digit()))?.parse().ok();
    words => bool: Some(words.next_if_eq(&"yes").is_some() || words.next_if_eq(&"no").map(|_| false)?);
    words => String: words.next().filter(|it| !it.is_empty()).map(String::from);
    words => Option<String>: String::read(words).map(|name| Some(name).filter(|name| name != "none"));
    words => (String, u64): Some((Read::read(words)?, Read::read(words)?));
    words => Vec<u8>: {
        let digits = words.next()?;
        let pairs = (0..digits.len()).step_by(2).map(|at| digits.get(at..at + 2));
        pairs.map(|pair| u8::from_str_radix(pair?, 16).ok()).collect()
    };
    words => Rest: Some(Rest(words.by_ref().collect::<Vec<_>>().join(" ")));
}

impl<T: Read> Read for Vec<T> {
    fn read(words: &mut Words) -> Option<Self> {
        let mut found = Vec::new();
        while words.peek().is_some_and(|word| *word != "dropped") {
            found.push(T::read(words)?);
        }
        Some(found)
    }
}

// A size is a number of bytes. An id is 64 hexadecimal digits, and doesn't depend on the signatures.
values! {
    Given { ticket: u64, id: String } "A transaction that the pool has accepted."
    Declared { size: u64, id: String } "A transaction that was declared from its bytes."
    Shown { size: u64, id: String, bytes: Vec<u8> } "A transaction with all its bytes."
    Item { ticket: u64, ":" name: String } "A transaction that the pool holds. After `Pool::ids` its name is its id."
    Removed { removed: Vec<u64>, "dropped" dropped: Vec<u64> } "The tickets of what was taken out, and of what isn't valid without it."
    LedgerChange { kept: Vec<u64>, "dropped" dropped: Vec<u64> } "The tickets of what stays, and of what isn't valid any more."
    Snapshot { count: u64, size: u64, last_ticket: u64, items: Vec<Item> } "What the pool holds, oldest first."
    Block { count: u64, size: u64, items: Vec<Item> } "The oldest transactions, as many as fit."
    Stats { count: u64, size: u64, free: u64, last_ticket: u64, changes: u64, refusals: Vec<(String, u64)> } "The pool's numbers."
}

// tools/check_rules compares these words with the specs.
refusals! {
    "history" History "the pool has made as many changes as its limit allows"
    "tickets" Tickets "the last ticket has been given"
    "already" Already { ticket: u64 } "the pool holds this transaction, under ticket {ticket}"
    "full" Full { need: u64, free: u64 } "the transaction has {need} bytes, and {free} are free"
    "no-inputs" NoInputs "the transaction has no input"
    "interval" Interval "the pool's tick is outside the transaction's interval"
    "negative" Negative { output: u64 } "output {output} has a negative quantity"
    "missing" Missing { input: u64 } "input {input} names no unspent output"
    "reference" Reference { reference: u64 } "reference input {reference} names no unspent output"
    "address" Address { input: u64 } "the validator of input {input} isn't that of the output it spends"
    "datum" Datum { input: u64 } "the datum of input {input} isn't that of the output it spends"
    "taken" Taken { output: u64 } "output {output} would have the reference of an unspent output"
    "no-policy" NoPolicy { policy: String } "it forges tokens of policy {policy} without that script"
    "unbalanced" Unbalanced { token: String } "it doesn't pay what it spends and forges of '{token}'"
    "signature" Signature { key: u64 } "a signature of key {key} isn't good"
    "validator" Validator { input: u64 } "the validator of input {input} doesn't accept"
    "policy-script" PolicyScript { policy_script: u64 } "policy script {policy_script} doesn't accept"
    "back" Back { kept: u64 } "only {kept} former ledger states are kept"
}

explained! {
    /// What went wrong with a call. After the first five nothing has changed, and the pool goes on.
    /// After the last two the program has ended, and each call returns `Broken`. Only `give` has an id.
    Error {
        Refused { why: Refusal, id: Option<String> } "refused: {why}"
        Undecodable { fault: String } "the bytes are no transaction: {fault}"
        BadLine { number: u64, reason: String } "line {number}: {reason}"
        OutOfMemory "the program is out of memory; nothing has changed"
        Argument { word: String } "{word:?} can't be sent"
        Timeout { line: String, waited: Duration } "no answer came to '{line}' in {waited:?}; the program was ended"
        Broken { reason: String, status: Option<ExitStatus>, last_line: String } "{reason}"
    }
}
impl std::error::Error for Error {}

/// Reads an answer: the error that it reports, or a value after this word. None means neither.
pub(crate) fn read<T: Read>(answer: &str, first: Option<&str>) -> Option<Result<T>> {
    let spaced = answer.replace(':', " : ");
    let mut words = spaced.split(' ').peekable();
    let result = match words.next()? {
        "refused" => {
            let why = Read::read(&mut words)?;
            Err(Error::Refused { why, id: words.next_if(|word| word.len() == 64).map(String::from) })
        }
        "undecodable" => Err(Error::Undecodable { fault: Read::read(&mut words)? }),
        "bad" => {
            let (number, reason) = answer.strip_prefix("bad ")?.split_once(": ")?;
            return Some(Err(Error::BadLine { number: number.parse().ok()?, reason: reason.into() }));
        }
        "fault" if answer == "fault: no memory" => return Some(Err(Error::OutOfMemory)),
        word if word == first.unwrap_or(word) => Ok(T::read(&mut words)?),
        _ => return None,
    };
    words.next().is_none().then_some(result)
}
