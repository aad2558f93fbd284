//! A wallet that pays, and sees its payment through a block and a rollback.
//!
//!     cargo run --example wallet PROGRAM | diff examples/wallet.out -

use std::time::Duration;
use std::{env, error};

use keltuvar_client::{Error, Pool};

const ALICE: &str = "aaaaaaaaaaaaaaaaaaaaaaaaaaaaaaaaaaaaaaaaaaaaaaaaaaaaaaaaaaaaaaaa";
// The script that always accepts and the datum without content: their hashes, and how an input has them.
const ADDRESS: &str = "4bf5122f344554c53bde2ebb8cd2b7e3d1600ad631c385a5d7cce23c7785459a";
const DATUM_HASH: &str = "3e4479e6b5a0a3bed1440325ca4bb09327a1dfb39c28bdd59de53a687ade0105";
const UNLOCK: &str = "00010100030300000003030000";

fn output(coin: u64) -> String {
    format!("{ADDRESS}{DATUM_HASH}0001{:066x}{coin:016x}", 0)
}

fn payment(id: &str, index: u16, coins: &[u64]) -> Vec<u8> {
    let outputs: String = coins.iter().map(|coin| output(*coin)).collect();
    let (count, rest) = (coins.len(), format!("{:016x}{:016x}{:012x}", 0, u64::MAX, 0));
    decode(&format!("010001{id}{index:04x}{UNLOCK}{count:04x}{outputs}{rest}"))
}

fn decode(digits: &str) -> Vec<u8> {
    (0..digits.len()).step_by(2).map(|at| u8::from_str_radix(&digits[at..at + 2], 16).expect("digits")).collect()
}

/// Gives the pool a transaction, says what became of it, and returns its id if it is accepted.
fn give(pool: &mut Pool, what: &str, bytes: &[u8]) -> Result<String, Error> {
    let given = pool.give(bytes);
    match &given {
        Ok(accepted) => println!("{what}: accepted under ticket {}", accepted.ticket),
        Err(error) => println!("{what}: {error}"),
    }
    given.map(|accepted| accepted.id)
}

fn main() -> Result<(), Box<dyn error::Error>> {
    let mut pool = Pool::start(env::args().nth(1).ok_or("usage: wallet PROGRAM")?, &[])?;
    pool.timeout = Duration::from_secs(60);
    pool.settings(&[("block", 400)])?;
    pool.utxo((ALICE, 0), &decode(&output(100)))?;
    pool.ids()?;

    // Alice pays 60 and keeps 40, and then pays 15 of these. An answer may get lost, so she asks again.
    let pay = payment(ALICE, 0, &[60, 40]);
    let id = give(&mut pool, "a payment", &pay)?;
    let change = payment(&id, 1, &[15, 25]);
    give(&mut pool, "one of its change", &change)?;
    let _ = give(&mut pool, "the first again", &pay);
    let _ = give(&mut pool, "the same coins again", &payment(ALICE, 0, &[100]));
    let _ = give(&mut pool, "without its last byte", &pay[..pay.len() - 1]);
    let place = format!("#{id}");
    println!("the first has {} bytes; ticket 1 is it: {}", pool.show(&place)?.bytes.len(), pool.lookup(1)? == Some(id));
    println!("after ticket 1: {:?}", pool.after(1)?.iter().map(|item| item.ticket).collect::<Vec<_>>());

    // A block has the first payment, and is rolled back. Both payments are still good then.
    let block = pool.forge(400)?;
    let change_of_state = pool.adopt(1, None, &[&place])?;
    println!("a block of {} bytes: {:?} stay, {:?} go", block.size, change_of_state.kept, change_of_state.dropped);
    println!("the pool holds the first: {}", pool.has(&place)?);
    let _ = give(&mut pool, "the first once more", &pay);
    println!("rolled back: {:?} go", pool.back(1)?.dropped);
    give(&mut pool, "the first", &pay)?;
    give(&mut pool, "the other", &change)?;

    let (held, stats) = (pool.snapshot()?, pool.stats()?);
    println!("{} transactions, {} bytes, {} changes: {:?}", held.count, held.size, stats.changes, stats.refusals);
    println!("the program has ended: {}", pool.close(Duration::from_secs(60)).ok_or("no status")?);
    Ok(())
}
