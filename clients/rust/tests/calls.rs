//! Calls and errors, with the Python client's fake server.

use std::fmt::Debug;
use std::io::{BufRead, BufReader, Write};
use std::os::unix::net::UnixStream;
use std::thread;
use std::time::{Duration, Instant};

use keltuvar_client::*;

const FAKE: &str = concat!(env!("CARGO_MANIFEST_DIR"), "/../python/tests/fake_server.py");
// What has to come comes within this time, also on a machine that has much else to do.
const LONG: Duration = Duration::from_secs(60);
const SHORT: Duration = Duration::from_millis(200);
const ID: &str = "f8f11283a19134b80b18f90f8ab47ef21a315808b705b442408dadb4fffe20b1";

fn fake_pool() -> Pool {
    let mut pool = Pool::start(FAKE, &[]).expect("the fake server needs python3");
    pool.timeout = LONG;
    pool
}

fn id() -> String {
    ID.into()
}

fn items() -> Vec<Item> {
    vec![Item { ticket: 1, name: "a".into() }, Item { ticket: 20, name: "b".into() }]
}

/// Makes a call whose line is answered so, and checks the line and what the call returns.
fn check<T: PartialEq + Debug>(
    pool: &mut Pool,
    line: &str,
    answer: &str,
    call: fn(&mut Pool) -> Result<T>,
    result: Result<T>,
) {
    assert_eq!(pool.ask(&format!("next {answer}")).as_deref(), Ok("ok"));
    assert_eq!(call(pool), result, "{line}: {answer}");
    assert_eq!(pool.ask("heard").as_deref(), Ok(line));
}

#[test]
fn declarations() {
    let to = &mut fake_pool();
    check(to, "block 300", "ok", |pool| pool.settings(&[("block", 300)]), Ok(()));
    check(to, "tick 18446744073709551615", "ok", |pool| pool.settings(&[("tick", u64::MAX)]), Ok(()));
    check(to, "out g0 5,7*yes.gold@five/unit", "ok", |pool| pool.out("g0", "5,7*yes.gold@five/unit"), Ok(()));
    check(to, &format!("utxo {ID}#65535 0aff"), "ok", |pool| pool.utxo((ID, 65535), b"\x0a\xff"), Ok(()));
    check(to, "script five 0540", "ok", |pool| pool.script("five", b"\x05\x40"), Ok(()));
    check(to, "data six 030000", "ok", |pool| pool.data("six", b"\x03\0\0"), Ok(()));
    check(to, "tx a in=g0 out=100", "ok", |pool| pool.tx("a", &["in=g0", "out=100"]), Ok(()));
    let declared = Ok(Declared { size: 181, id: id() });
    check(to, "bytes b 0100", &format!("tx 181 {ID}"), |pool| pool.tx_from_bytes("b", b"\x01\x00"), declared);
    check(to, "forget a b", "forgotten 2", |pool| pool.forget(&["a", "b"]), Ok(2));
    check(to, "ids", "ok", |pool| pool.ids(), Ok(()));
    check(to, "names", "ok", |pool| pool.names(), Ok(()));
    check(to, "reset", "ok", |pool| pool.reset(), Ok(()));
}

#[test]
fn changes() {
    let to = &mut fake_pool();
    let accepted = Ok(Given { ticket: 7, id: id() });
    check(to, "give 0aff", &format!("accepted 7 {ID}"), |pool| pool.give(b"\x0a\xff"), accepted);
    check(to, "submit a", "accepted 18446744073709551615", |pool| pool.submit("a"), Ok(u64::MAX));
    check(to, &format!("check #{ID}"), "accepted 7", |pool| pool.check(&format!("#{ID}")), Ok(7));
    let removed = Ok(Removed { removed: vec![1, 2], dropped: vec![3] });
    check(to, "remove a b", "removed 1 2 dropped 3", |pool| pool.remove(&["a", "b"]), removed);
    let change = || Ok(LedgerChange { kept: vec![1], dropped: vec![2, 3] });
    check(to, "sync 5 g0 a.1", "kept 1 dropped 2 3", |pool| pool.sync(5, None, &["g0", "a.1"]), change());
    check(to, "adopt 6 block=9 a", "kept 1 dropped 2 3", |pool| pool.adopt(6, Some(9), &["a"]), change());
    let nothing = Ok(LedgerChange { kept: vec![], dropped: vec![] });
    check(to, "back 0", "kept dropped", |pool| pool.back(0), nothing);
}

#[test]
fn reads() {
    let to = &mut fake_pool();
    let shown = Ok(Shown { size: 2, id: id(), bytes: vec![1, 255] });
    check(to, "show a", &format!("tx 2 {ID} 01Ff"), |pool| pool.show("a"), shown);
    check(to, "has a", "has yes", |pool| pool.has("a"), Ok(true));
    check(to, "has a", "has no", |pool| pool.has("a"), Ok(false));
    check(to, "lookup 1", "lookup a", |pool| pool.lookup(1), Ok(Some("a".into())));
    check(to, "lookup 2", "lookup none", |pool| pool.lookup(2), Ok(None));
    check(to, "after 0", "after 1:a 20:b", |pool| pool.after(0), Ok(items()));
    check(to, "after 9", "after", |pool| pool.after(9), Ok(vec![]));
    check(to, "offer 9 1000", "offer 1:a 20:b", |pool| pool.offer(9, 1000), Ok(items()));
    check(to, "for 1 block=5 a.0", "for 1:a 20:b", |pool| pool.try_ledger(1, Some(5), &["a.0"]), Ok(items()));
    let block = || Ok(Block { count: 2, size: 362, items: items() });
    check(to, "take 400", "take 2 362 1:a 20:b", |pool| pool.take(400), block());
    check(to, "forge 400", "block 2 362 1:a 20:b", |pool| pool.forge(400), block());
    let held = Ok(Snapshot { count: 2, size: 362, last_ticket: 20, items: items() });
    check(to, "snapshot", "snapshot 2 362 20 1:a 20:b", |pool| pool.snapshot(), held);
    let refusals = vec![("already".into(), 1), ("no-policy".into(), 2)];
    let stats = Ok(Stats { count: 1, size: 181, free: 419, last_ticket: 1, changes: 1, refusals });
    check(to, "stats", "stats 1 181 419 1 1 already 1 no-policy 2", |pool| pool.stats(), stats);
}

#[test]
fn refusals() {
    let to = &mut fake_pool();
    let refused = |why| Err(Error::Refused { why, id: None });
    let missing = Refusal::Missing { input: 0 };
    check(
        to,
        "submit a",
        "refused full 277 238",
        |pool| pool.submit("a"),
        refused(Refusal::Full { need: 277, free: 238 }),
    );
    check(to, "submit a", "refused no-inputs", |pool| pool.submit("a"), refused(Refusal::NoInputs));
    let token = Refusal::Unbalanced { token: "yes.gold".into() };
    check(to, "submit a", "refused unbalanced yes.gold", |pool| pool.submit("a"), refused(token));
    let other = Refusal::Other { words: "moon 5 full".into() };
    check(to, "submit a", "refused moon 5 full", |pool| pool.submit("a"), refused(other));
    let adopt = Refusal::Adopt { transaction: "b".into(), cause: Box::new(missing.clone()) };
    assert_eq!(adopt.to_string(), "transaction 'b' isn't valid: input 0 names no unspent output");
    let refused = Err(Error::Refused { why: adopt, id: None });
    check(to, "adopt 1 a", "refused adopt b missing 0", |pool| pool.adopt(1, None, &["a"]), refused);
    let given = Err(Error::Refused { why: missing, id: Some(id()) });
    check(to, "give 01", &format!("refused missing 0 {ID}"), |pool| pool.give(b"\x01"), given);
}

#[test]
fn other_errors() {
    let to = &mut fake_pool();
    let undecodable = Err(Error::Undecodable { fault: "large".into() });
    check(to, "give 01", "undecodable large", |pool| pool.give(b"\x01"), undecodable);
    let bad = Err(Error::BadLine { number: 5, reason: "no transaction 'a': x".into() });
    check(to, "submit a", "bad 5: no transaction 'a': x", |pool| pool.submit("a"), bad.clone());
    check(to, "submit a", "bad 5: no transaction 'a': x", |pool| pool.ask("submit a").map(|_| 0), bad);
    check(to, "has a", "fault: no memory", |pool| pool.has("a"), Err(Error::OutOfMemory));
}

#[test]
fn arguments() {
    let mut pool = fake_pool();
    assert_eq!(pool.ask("# a comment").as_deref(), Ok("ok"));
    for word in ["", "a b", "a\nb", "\u{e4}"] {
        assert!(matches!(pool.submit(word), Err(Error::Argument { .. })), "{word}");
    }
    assert!(matches!(pool.give(b""), Err(Error::Argument { .. })));
    assert!(matches!(pool.ask("stats\nstats"), Err(Error::Argument { .. })));
    assert_eq!(pool.ask("heard").as_deref(), Ok("# a comment"));
}

#[test]
fn many_lines() {
    let mut pool = fake_pool();
    let lines: Vec<String> = (0..50000).map(|number| format!("lookup {number}")).collect();
    let lines: Vec<&str> = lines.iter().map(String::as_str).collect();
    assert_eq!(pool.ask("next refused missing 0").as_deref(), Ok("ok"));
    let answers = pool.ask_all(&lines).expect("answers");
    assert_eq!(answers[0], Err(Error::Refused { why: Refusal::Missing { input: 0 }, id: None }));
    for (number, answer) in answers.iter().enumerate().skip(1) {
        assert_eq!(answer.as_deref(), Ok(format!("lookup n{number}").as_str()));
    }
    assert_eq!(pool.ask("long 5000000").map(|answer| answer.len()), Ok(5_000_000));
    let data = vec![7; 1_000_000];
    assert_eq!(pool.script("a", &data), Ok(()));
    assert_eq!(pool.ask_all(&[]), Ok(vec![]));
}

#[test]
fn what_is_no_answer_ends_the_program() {
    let wrong = [
        "",
        "ok",
        "accepted",
        "accepted x",
        "accepted 1 2",
        "refused",
        "refused full 1",
        "refused missing 0 1",
        "bad",
        "bad x: y",
    ];
    for answer in wrong.into_iter().chain(["fault: read", "undecodable", "has yes", "accepted -1", "accepted +1"]) {
        let mut pool = fake_pool();
        pool.ask(&format!("next {answer}")).expect("ok");
        for _ in 0..2 {
            let Err(Error::Broken { reason, status, .. }) = pool.submit("a") else { panic!("{answer}") };
            assert!(reason.contains("has no known form"), "{reason}");
            assert!(status.is_some());
        }
    }
    for answer in ["kept 1", "kept x dropped", "kept dropped dropped", "removed dropped"] {
        let mut pool = fake_pool();
        pool.ask(&format!("next {answer}")).expect("ok");
        assert!(matches!(pool.back(1), Err(Error::Broken { .. })), "{answer}");
    }
    for answer in ["after a", "after 1:", "after 1:a:b", "after x:a", "after "] {
        let mut pool = fake_pool();
        pool.ask(&format!("next {answer}")).expect("ok");
        assert!(matches!(pool.after(1), Err(Error::Broken { .. })), "{answer}");
    }
}

#[test]
fn a_program_that_dies() {
    let mut pool = fake_pool();
    pool.ask("error fault: read").expect("ok");
    let broken = pool.ask("die 3").expect_err("no answer");
    let Error::Broken { reason, status, .. } = &broken else { panic!("{broken}") };
    assert_eq!(status.and_then(|status| status.code()), Some(3));
    assert!(reason.starts_with("no answer came to 'die 3', and the program ended: exit status: 3"), "{reason}");
    assert_eq!(pool.submit("a"), Err(broken));
    assert_eq!(fake_pool().close(LONG).and_then(|status| status.code()), Some(0));
    assert!(Pool::start("no such program", &[]).is_err());
}

#[test]
fn its_last_words() {
    let mut pool = Pool::start("/bin/ls", &[]).expect("ls");
    let Err(Error::Broken { reason, last_line, .. }) = pool.stats() else { panic!("it answers") };
    assert!(last_line.contains("serve"), "{last_line}");
    assert!(reason.ends_with(&last_line), "{reason}");
}

#[test]
fn a_deadline() {
    for line in ["silent", "half"] {
        let mut pool = fake_pool();
        pool.ask("stay").expect("ok");
        pool.timeout = SHORT;
        let began = Instant::now();
        let Err(Error::Timeout { line: told, waited }) = pool.ask(line) else { panic!("{line}") };
        assert_eq!((told.as_str(), waited), (line, SHORT));
        assert!(matches!(pool.stats(), Err(Error::Broken { .. })));
        assert!(began.elapsed() < LONG);
    }
}

#[test]
fn an_answer_too_many() {
    let mut pool = fake_pool();
    pool.ask("twice").expect("ok");
    thread::sleep(SHORT);
    let Err(Error::Broken { reason, .. }) = pool.stats() else { panic!("an answer too many") };
    assert!(reason.starts_with("an answer came before 'stats'"), "{reason}");
}

#[test]
fn streams() {
    let (ours, theirs) = UnixStream::pair().expect("a pair of sockets");
    let server = thread::spawn(move || {
        let mut lines = BufReader::new(theirs.try_clone().expect("a clone")).lines();
        assert_eq!(lines.next().expect("a line").expect("text"), "has a");
        (&theirs).write_all(b"has yes\n").expect("a write");
    });
    let mut pool = Pool::from_streams(ours.try_clone().expect("a clone"), ours).expect("threads");
    pool.timeout = LONG;
    assert_eq!(pool.has("a"), Ok(true));
    server.join().expect("the server");
    let Err(Error::Broken { reason, status, .. }) = pool.has("a") else { panic!("it has ended") };
    assert_eq!((reason.as_str(), status), ("no answer came to 'has a'", None));
    assert_eq!(pool.close(LONG), None);
}

#[test]
fn a_pool_may_move_to_another_thread() {
    let mut pool = fake_pool();
    assert_eq!(thread::spawn(move || pool.lookup(3)).join().expect("a thread"), Ok(Some("n3".into())));
}
