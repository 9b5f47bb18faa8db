//! Accounts of domains that record.

use std::thread;
use yalwythen::account::{Account, Act, Origin};
use yalwythen::{AccountError, Domain};

#[test]
fn an_account_has_what_was_done_and_what_is_left() {
    let domain = Domain::recorded();
    let (tx, rx) = domain.closable();
    assert_eq!(domain.run((tx.write("a"), tx.write("b"))), Ok((Ok(()), Ok(()))));
    rx.recv().unwrap();
    assert!(
        domain
            .try_atomically(|step| {
                step.write(&tx, "lost")?.unwrap();
                step.retry::<()>()
            })
            .is_err()
    );
    tx.close();
    let account = domain.account(&tx).unwrap();
    assert_eq!(account, domain.account(&rx).unwrap());
    let acts: Vec<Act> = account.entries.iter().map(|entry| entry.act).collect();
    let [a, b] = [0, 1].map(Origin::Written);
    assert_eq!(acts, [Act::Wrote(a), Act::Wrote(b), Act::Took(a), Act::Closed]);
    assert_eq!(account.left, [b]);
    // Both writes are of one transaction.
    let stamps: Vec<u64> = account.entries.iter().map(|entry| entry.stamp).collect();
    assert!(stamps[0] == stamps[1] && stamps[1..].is_sorted_by(|one, next| one < next));
    assert_eq!(account.entries[2].serial, account.entries[0].serial + 1);
}

#[test]
fn what_is_not_recorded_has_no_account() {
    let (domain, other) = (Domain::new(), Domain::recorded());
    let ((tx, _rx), (recorded, _recorded_rx)) = (domain.queue::<u8>(), other.queue::<u8>());
    assert_eq!(domain.account(&tx), Err(AccountError::NotRecorded));
    assert_eq!(other.account(&tx), Err(AccountError::OtherDomain));
    assert_eq!(other.account(&recorded), Ok(Account::default()));
}

#[test]
#[should_panic(expected = "a domain that records has no broadcasts")]
fn a_domain_that_records_has_no_broadcasts() {
    let _ = Domain::recorded().broadcast::<u8>();
}

#[test]
fn each_item_of_many_threads_is_in_the_account_once() {
    const EACH: u64 = 500;
    let domain = Domain::recorded();
    let (tx, rx) = domain.bounded_closable(8).unwrap();
    thread::scope(|scope| {
        for _ in 0..3 {
            let (tx, rx) = (tx.clone(), rx.clone());
            scope.spawn(move || (0..EACH).for_each(|number| tx.send(number).unwrap()));
            scope.spawn(move || (0..EACH).for_each(|_| _ = rx.recv().unwrap()));
        }
    });
    let account = domain.account(&rx).unwrap();
    let (mut wrote, mut took) = (Vec::new(), Vec::new());
    for entry in &account.entries {
        match entry.act {
            Act::Wrote(item) => wrote.push(item),
            Act::Took(item) => took.push(item),
            other => panic!("nobody did {other:?}"),
        }
        assert!((took.len()..=took.len() + 8).contains(&wrote.len()));
    }
    assert_eq!(wrote, took);
    assert!(wrote.into_iter().eq((0..3 * EACH).map(Origin::Written)));
    assert!(account.entries.is_sorted_by_key(|entry| entry.stamp));
}

#[test]
fn a_long_account_is_read_in_one_pass() {
    let domain = Domain::recorded();
    let (tx, rx) = domain.queue();
    (0..20_000).for_each(|number| tx.send(number).unwrap());
    assert_eq!(domain.account(&rx).unwrap().left.len(), 20_000);
}
