//! Conversations with the program itself, whose path is in KELTUVAR. What it has to answer is from
//! docs/SERVE.md and docs/FORMATS.md. Without it these tests do nothing, and say so.

use std::env;
use std::io::{self, Write};
use std::time::Duration;

use keltuvar_client::*;

const LONG: Duration = Duration::from_secs(60);
// The first whole transaction of docs/FORMATS.md in three parts, of which the second is its output, and its id.
const PLAIN: [&str; 3] = [
    "0100010000000000000000000000000000000000000000000000000000000000000000000000010100030300000003030000\
     0001",
    "4bf5122f344554c53bde2ebb8cd2b7e3d1600ad631c385a5d7cce23c7785459a\
     3e4479e6b5a0a3bed1440325ca4bb09327a1dfb39c28bdd59de53a687ade0105\
     00010000000000000000000000000000000000000000000000000000000000000000000000000000000064",
    "0000000000000000ffffffffffffffff000000000000",
];
const PLAIN_ID: &str = "f8f11283a19134b80b18f90f8ab47ef21a315808b705b442408dadb4fffe20b1";

fn decode(digits: &str) -> Vec<u8> {
    (0..digits.len()).step_by(2).map(|at| u8::from_str_radix(&digits[at..at + 2], 16).expect("digits")).collect()
}

fn plain() -> Vec<u8> {
    decode(&PLAIN.concat())
}

/// Starts the program, if KELTUVAR names it.
fn start() -> Option<Pool> {
    let Some(program) = env::var_os("KELTUVAR") else {
        // Unlike eprintln this isn't captured.
        let _ = writeln!(io::stderr(), "left out, as KELTUVAR doesn't name the program");
        return None;
    };
    let mut pool = Pool::start(program, &[]).expect("the program runs");
    pool.timeout = LONG;
    Some(pool)
}

fn item(ticket: u64, name: &str) -> Item {
    Item { ticket, name: name.into() }
}

fn refused<T>(why: Refusal) -> Result<T> {
    Err(Error::Refused { why, id: None })
}

#[test]
fn a_conversation() -> Result<()> {
    let Some(mut pool) = start() else { return Ok(()) };
    pool.settings(&[("block", 300)])?;
    pool.script("five", &decode("054002000000000000000520"))?;
    pool.data("six", &decode("010000000000000006"))?;
    pool.out("g0", "100")?;
    assert_eq!(pool.tx_from_bytes("a", &plain())?, Declared { size: 181, id: PLAIN_ID.into() });
    assert_eq!(pool.show("a")?, Shown { size: 181, id: PLAIN_ID.into(), bytes: plain() });
    assert_eq!(pool.check("a")?, 1);
    let stats = Stats { count: 0, size: 0, free: 600, last_ticket: 0, changes: 0, refusals: vec![] };
    assert_eq!(pool.stats()?, stats);
    assert_eq!(pool.submit("a")?, 1);
    assert_eq!(pool.submit("a"), refused(Refusal::Already { ticket: 1 }));
    let refusals = vec![("already".into(), 1)];
    let stats = Stats { count: 1, size: 181, free: 419, last_ticket: 1, changes: 1, refusals };
    assert_eq!(pool.stats()?, stats);
    let items = vec![item(1, "a")];
    assert_eq!(pool.snapshot()?, Snapshot { count: 1, size: 181, last_ticket: 1, items: items.clone() });
    assert_eq!((pool.after(0)?, pool.after(1)?), (items.clone(), vec![]));
    assert_eq!((pool.lookup(1)?, pool.lookup(2)?), (Some("a".into()), None));
    assert!(pool.has("a")?);
    assert_eq!(pool.take(200)?, Block { count: 1, size: 181, items: items.clone() });
    assert_eq!(pool.take(180)?, Block { count: 0, size: 0, items: vec![] });
    assert_eq!((pool.offer(9, 1000)?, pool.offer(9, 1000)?), (items.clone(), vec![]));
    assert_eq!(pool.forge(300)?, Block { count: 1, size: 181, items: items.clone() });
    assert_eq!((pool.try_ledger(1, None, &[])?, pool.try_ledger(1, Some(300), &["g0"])?), (vec![], items));
    assert_eq!(pool.adopt(1, None, &["a"])?, LedgerChange { kept: vec![], dropped: vec![1] });
    let missing = Refusal::Missing { input: 0 };
    assert_eq!(pool.check("a"), refused(missing.clone()));
    let adopt = Refusal::Adopt { transaction: "a".into(), cause: Box::new(missing) };
    assert_eq!(pool.adopt(2, None, &["a"]), refused(adopt));
    assert_eq!(pool.back(1)?, LedgerChange { kept: vec![], dropped: vec![] });
    assert_eq!(pool.back(1), refused(Refusal::Back { kept: 0 }));
    assert_eq!(pool.submit("a")?, 2);
    assert_eq!(pool.sync(1, Some(300), &[])?, LedgerChange { kept: vec![], dropped: vec![2] });
    assert_eq!(pool.remove(&["a"])?, Removed { removed: vec![], dropped: vec![] });
    assert_eq!((pool.forget(&["a"])?, pool.forget(&["a"])?), (1, 0));
    assert!(matches!(pool.submit("a"), Err(Error::BadLine { number: 35, .. })));
    assert!(pool.close(LONG).expect("a status").success());
    Ok(())
}

#[test]
fn transactions_without_names() -> Result<()> {
    let Some(mut pool) = start() else { return Ok(()) };
    let (zeros, id) = ("0".repeat(64), format!("#{PLAIN_ID}"));
    pool.utxo((&zeros, 0), &decode(PLAIN[1]))?;
    assert_eq!(pool.give(b"\x03"), Err(Error::Undecodable { fault: "version".into() }));
    assert!(matches!(pool.show(&id), Err(Error::BadLine { number: 3, .. })));
    assert_eq!(pool.give(&plain())?, Given { ticket: 1, id: PLAIN_ID.into() });
    let already = Error::Refused { why: Refusal::Already { ticket: 1 }, id: Some(PLAIN_ID.into()) };
    assert_eq!(pool.give(&plain()), Err(already));
    assert_eq!((pool.has(&id)?, pool.has(&format!("#{zeros}"))?), (true, false));
    assert_eq!(pool.show(&id)?.bytes, plain());
    // It has no name, so that it is reported by its id in any case.
    assert_eq!(pool.lookup(1)?.as_deref(), Some(PLAIN_ID));
    pool.tx_from_bytes("a", &plain())?;
    pool.ids()?;
    assert_eq!(pool.after(0)?, [item(1, PLAIN_ID)]);
    pool.names()?;
    assert_eq!(pool.adopt(1, None, &[&id])?, LedgerChange { kept: vec![], dropped: vec![1] });
    assert_eq!(pool.stats()?.refusals, [("already".into(), 1)]);
    Ok(())
}

#[test]
fn refusals() -> Result<()> {
    let Some(mut pool) = start() else { return Ok(()) };
    pool.settings(&[("block", 300)])?;
    for (name, pay) in [("g0", "100"), ("g1", "100,7*yes.gold"), ("g2", "50@no")] {
        pool.out(name, pay)?;
    }
    let cases: [(&[&str], Refusal); 7] = [
        (&["out=100"], Refusal::NoInputs),
        (&["in=g0", "out=100", "from=5"], Refusal::Interval),
        (&["in=g0", "out=105", "out=-5"], Refusal::Negative { output: 1 }),
        (&["in=g0", "out=100", "out=1*no.x", "forge=1*no.x"], Refusal::NoPolicy { policy: "no".into() }),
        (&["in=g1", "out=100"], Refusal::Unbalanced { token: "yes.gold".into() }),
        (&["in=g0", "out=100", "sign=2", "badsign=7"], Refusal::Signature { key: 7 }),
        (&["in=g2", "out=50"], Refusal::Validator { input: 0 }),
    ];
    for (number, (items, why)) in cases.into_iter().enumerate() {
        let name = format!("t{number}");
        pool.tx(&name, items)?;
        assert_eq!(pool.submit(&name), refused(why), "{items:?}");
    }
    pool.tx("a", &["in=g0", "out=100"])?;
    pool.tx("b", &["in=a.0", "out=100"])?;
    pool.tx("c", &["in=b.0", "out=100", "sign=5"])?;
    assert_eq!(pool.submit("b"), refused(Refusal::Missing { input: 0 }));
    assert_eq!((pool.submit("a")?, pool.submit("b")?), (1, 2));
    assert_eq!(pool.submit("c"), refused(Refusal::Full { need: 277, free: 238 }));
    assert_eq!(pool.remove(&["a"])?, Removed { removed: vec![1], dropped: vec![2] });
    Ok(())
}

#[test]
fn many_lines() -> Result<()> {
    const COUNT: usize = 400;
    let Some(mut pool) = start() else { return Ok(()) };
    let mut lines = vec!["out t0 100".to_string()];
    lines.extend((1..=COUNT).map(|number| {
        let spent = if number == 1 { "t0".to_string() } else { format!("t{}.0", number - 1) };
        format!("tx t{number} in={spent} out=100")
    }));
    lines.extend((1..=COUNT).map(|number| format!("submit t{number}")));
    let lines: Vec<&str> = lines.iter().map(String::as_str).collect();
    let answers = pool.ask_all(&lines)?;
    let wanted = (0..=COUNT).map(|_| "ok".to_string()).chain((1..=COUNT).map(|ticket| format!("accepted {ticket}")));
    for (answer, wanted) in answers.into_iter().zip(wanted) {
        assert_eq!(answer, Ok(wanted));
    }
    assert_eq!(pool.snapshot()?.items.len(), COUNT);
    Ok(())
}

#[test]
fn a_refused_command_line() {
    let Some(program) = env::var_os("KELTUVAR") else { return };
    let mut pool = Pool::start(program, &["--salt", "x"]).expect("the program runs");
    pool.timeout = LONG;
    let Err(Error::Broken { status, last_line, .. }) = pool.stats() else { panic!("it answers") };
    assert_eq!(status.and_then(|status| status.code()), Some(2));
    assert!(!last_line.is_empty());
}
