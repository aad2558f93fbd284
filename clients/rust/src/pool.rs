//! A pool: the program that holds it, and a call for each of its lines.

use std::io::{self, BufRead, BufReader, Read, Write};
use std::os::unix::process::CommandExt;
use std::process::{Child, Command, ExitStatus, Stdio};
use std::sync::mpsc::{channel, Receiver, RecvTimeoutError, Sender};
use std::time::{Duration, Instant};
use std::{ffi::OsStr, iter, thread};

use crate::answer::{self, *};

/// A pool that a program holds. Each call sends a line to `keltuvar serve` and reads its answer.
///
/// A transaction is its name, or `#` and the id of one that the pool holds. Dropping the pool ends
/// the program. Threads share a pool in a `Mutex`.
pub struct Pool {
    /// How long each call may take. `Duration::MAX`, as at first, is no limit.
    pub timeout: Duration,
    lines: Option<Sender<String>>,
    answers: Receiver<String>,
    program: Option<(Child, Receiver<String>)>, // with the lines of its standard error
    broken: Option<Error>,
}

impl Pool {
    /// Starts `PROGRAM serve` with these options, like `["--signatures", "ed25519"]`.
    pub fn start(program: impl AsRef<OsStr>, options: &[&str]) -> io::Result<Self> {
        let mut command = Command::new(program);
        command.stdin(Stdio::piped()).stdout(Stdio::piped()).stderr(Stdio::piped());
        // In a group of its own Control-C at a terminal doesn't end it.
        let mut child = command.arg("serve").args(options).process_group(0).spawn()?;
        let pipes = (child.stdin.take(), child.stdout.take(), child.stderr.take());
        let (Some(lines), Some(answers), Some(errors)) = pipes else {
            return Err(io::ErrorKind::BrokenPipe.into());
        };
        let mut pool = Self::from_streams(answers, lines)?;
        pool.program = Some((child, read_lines(errors)?));
        Ok(pool)
    }

    /// Takes over the streams of a program that runs already, like two clones of a socket.
    pub fn from_streams(answers: impl Read + Send + 'static, lines: impl Write + Send + 'static) -> io::Result<Self> {
        // A thread writes and another one reads, so that a deadline holds for both.
        let (mut to, (lines, unsent)) = (lines, channel::<String>());
        let write = move |text: String| to.write_all(text.as_bytes()).and_then(|()| to.flush());
        thread::Builder::new().spawn(|| unsent.into_iter().try_for_each(write))?;
        let (answers, timeout) = (read_lines(answers)?, Duration::MAX);
        Ok(Self { timeout, lines: Some(lines), answers, program: None, broken: None })
    }

    /// Ends the program's input, waits so long for its end, then kills it, and returns its status.
    pub fn close(mut self, patience: Duration) -> Option<ExitStatus> {
        self.end(patience)
    }

    /// Sends a line as it is, and returns its answer.
    pub fn ask(&mut self, line: &str) -> Result<String> {
        self.ask_all(&[line])?.remove(0)
    }

    /// Sends many lines without waiting for each, and returns what each is answered.
    pub fn ask_all(&mut self, lines: &[&str]) -> Result<Vec<Result<String>>> {
        Ok(self.exchange(lines)?.into_iter().map(|it| self.read::<Rest>(&it, None).map(|_| it)).collect())
    }

    /// Sends settings, like `[("block", 300), ("tick", 1)]`, before the first command.
    pub fn settings(&mut self, settings: &[(&str, u64)]) -> Result<()> {
        settings.iter().try_for_each(|(it, number)| self.call(&[it.words(), number.words()], "ok"))
    }

    /// Sends a line of these words, and reads what follows the first word of its answer.
    fn call<T: answer::Read>(&mut self, words: &[Vec<String>], first: &str) -> Result<T> {
        let words = words.concat();
        if let Some(word) = words.iter().find(|word| word.is_empty() || word.contains(' ')) {
            return Err(Error::Argument { word: word.clone() });
        }
        let answer = self.exchange(&[&words.join(" ")])?.remove(0);
        self.read(&answer, Some(first))
    }

    fn read<T: answer::Read>(&mut self, answer: &str, first: Option<&str>) -> Result<T> {
        let reason = format!("the answer '{answer:.60}' has no known form");
        answer::read(answer, first).unwrap_or_else(|| Err(self.fail(reason, Duration::ZERO)))
    }

    /// Sends lines, and returns an answer for each.
    fn exchange(&mut self, lines: &[&str]) -> Result<Vec<String>> {
        if let Some(broken) = &self.broken {
            return Err(broken.clone());
        }
        if let Some(line) = lines.iter().find(|line| line.bytes().any(|byte| !matches!(byte, 32..=126))) {
            return Err(Error::Argument { word: line.to_string() });
        }
        let line: String = lines.iter().flat_map(|line| line.chars()).take(60).collect();
        if self.answers.try_recv().is_ok() {
            return Err(self.fail(format!("an answer came before '{line}'"), Duration::ZERO));
        }
        let start = Instant::now();
        // Where this fails, so does the read below.
        let text = lines.iter().map(|line| format!("{line}\n")).collect();
        let _ = self.lines.as_ref().map(|thread| thread.send(text));
        let mut answers = Vec::new();
        while answers.len() < lines.len() {
            match self.answers.recv_timeout(self.timeout.saturating_sub(start.elapsed())) {
                Ok(answer) => answers.push(answer),
                Err(RecvTimeoutError::Timeout) => {
                    self.fail(format!("no answer came to '{line}' in time"), Duration::ZERO);
                    return Err(Error::Timeout { line, waited: self.timeout });
                }
                Err(_) => return Err(self.fail(format!("no answer came to '{line}'"), LAST_WORDS)),
            }
        }
        Ok(answers)
    }

    /// Ends the program, and returns the error of this call and of all later ones.
    fn fail(&mut self, mut reason: String, patience: Duration) -> Error {
        let status = self.end(patience);
        reason += &status.map_or("".into(), |status| format!(", and the program ended: {status}"));
        let next = || self.program.as_ref()?.1.recv_timeout(LAST_WORDS).ok();
        let last_line = iter::from_fn(next).filter(|line| !line.is_empty()).last().unwrap_or_default();
        reason += &if last_line.is_empty() { "".into() } else { format!(": {last_line}") };
        self.broken.insert(Error::Broken { reason, status, last_line }).clone()
    }

    fn end(&mut self, patience: Duration) -> Option<ExitStatus> {
        self.lines = None;
        let (child, _) = self.program.as_mut()?;
        let start = Instant::now();
        while matches!(child.try_wait(), Ok(None)) && start.elapsed() < patience {
            thread::sleep(Duration::from_millis(2));
        }
        let _ = child.kill();
        child.wait().ok()
    }
}

impl Drop for Pool {
    fn drop(&mut self) {
        self.end(Duration::from_secs(5));
    }
}

/// How long a program that has closed a stream may take to end, so that its status is its own.
const LAST_WORDS: Duration = Duration::from_secs(1);

/// Passes on lines in a thread. What has no line feed isn't a whole line.
fn read_lines(from: impl Read + Send + 'static) -> io::Result<Receiver<String>> {
    let (mut from, (to, lines)) = (BufReader::new(from), channel());
    let read = move || {
        let mut line = Vec::new();
        from.read_until(b'\n', &mut line).ok()?;
        (line.pop()? == b'\n').then(|| String::from_utf8_lossy(&line).into_owned())
    };
    thread::Builder::new().spawn(move || iter::from_fn(read).try_for_each(|line| to.send(line)))?;
    Ok(lines)
}

/// An argument of a call, which is words of its line.
trait Argument {
    fn words(&self) -> Vec<String>;
}

macro_rules! arguments {
    ($($argument:ident: $kind:ty => $words:expr;)*) => { $(
        impl Argument for $kind {
            fn words(&self) -> Vec<String> { let $argument = self; $words }
        }
    )* };
}

arguments! {
    text: &str => vec![text.to_string()];
    number: u64 => vec![number.to_string()];
    bytes: &[u8] => vec![bytes.iter().map(|byte| format!("{byte:02x}")).collect()];
    names: &[&str] => names.iter().map(|name| name.to_string()).collect();
    output: (&str, u16) => vec![format!("{}#{}", output.0, output.1)];
    block: Option<u64> => block.iter().map(|block| format!("block={block}")).collect();
}

/// Makes calls: a line's first word, the call, its answer's first word, what it returns, and what it does.
macro_rules! calls {
    ($($line:literal $name:ident($($argument:ident: $kind:ty),*) $answer:literal $result:ty, $text:literal)*) => {
        impl Pool { $(
            #[doc = $text]
            pub fn $name(&mut self, $($argument: $kind),*) -> Result<$result> {
                self.call(&[$line.words(), $($argument.words()),*], $answer)
            }
        )* }
    };
}

calls! {
    "out" out(name: &str, pay: &str) "ok" (), "Declares an output of the opening ledger state, like `100` or `5,7*yes.gold@five/unit`."
    "utxo" utxo(output: (&str, u16), bytes: &[u8]) "ok" (), "Adds an output, of this id and index, to the opening ledger state."
    "script" script(name: &str, code: &[u8]) "ok" (), "Declares a script by its bytes."
    "data" data(name: &str, datum: &[u8]) "ok" (), "Declares a datum by its bytes."
    "tx" tx(name: &str, items: &[&str]) "ok" (), "Declares a transaction by its items, like `[\"in=g0\", \"out=100\"]`."
    "bytes" tx_from_bytes(name: &str, bytes: &[u8]) "tx" Declared, "Declares a transaction by its bytes."
    "forget" forget(names: &[&str]) "forgotten" u64, "Forgets names of outputs and transactions, and returns how many it forgot."
    "ids" ids() "ok" (), "Reports transactions by their ids from now on."
    "names" names() "ok" (), "Reports transactions by their names again."
    "reset" reset() "ok" (), "Forgets all names, ends `ids`, and counts lines from 1. The pool holds what it held."
    "give" give(bytes: &[u8]) "accepted" Given, "Submits a transaction by its bytes, without a name."
    "submit" submit(name: &str) "accepted" u64, "Submits a declared transaction, and returns its ticket."
    "check" check(transaction: &str) "accepted" u64, "Returns the ticket that `submit` would give, or its refusal. Nothing changes."
    "remove" remove(transactions: &[&str]) "removed" Removed, "Takes out transactions and their dependents. Those not in the pool have no effect."
    "sync" sync(tick: u64, block: Option<u64>, references: &[&str]) "kept" LedgerChange, "Adopts the ledger state with exactly these unspent outputs."
    "adopt" adopt(tick: u64, block: Option<u64>, transactions: &[&str]) "kept" LedgerChange, "Adopts the ledger state after a block of these transactions."
    "back" back(count: u64) "kept" LedgerChange, "Adopts the ledger state before the last `count` calls of `adopt` or `sync`."
    "show" show(transaction: &str) "tx" Shown, "Returns a transaction's bytes."
    "has" has(transaction: &str) "has" bool, "Returns whether the pool holds a transaction with this one's id."
    "snapshot" snapshot() "snapshot" Snapshot, "Returns what the pool holds."
    "after" after(ticket: u64) "after" Vec<Item>, "Returns the transactions with greater tickets, oldest first."
    "lookup" lookup(ticket: u64) "lookup" Option<String>, "Returns the name of the transaction with this ticket."
    "take" take(size: u64) "take" Block, "Returns the oldest transactions, as long as they fit into `size` bytes in all."
    "forge" forge(size: u64) "block" Block, "Returns a block of at most `size` bytes."
    "offer" offer(count: u64, size: u64) "offer" Vec<Item>, "Returns what the pool's one peer is offered next."
    "for" try_ledger(tick: u64, block: Option<u64>, references: &[&str]) "for" Vec<Item>, "Returns what would stay after such a `sync`."
    "stats" stats() "stats" Stats, "Returns the pool's numbers."
}
