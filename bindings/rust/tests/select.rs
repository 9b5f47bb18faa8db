//! Selections, by the macro and by the builder.

use std::thread;
use std::time::{Duration, Instant};
use yalwythen::{Domain, RecvError, RunError, SendError, select};

#[test]
fn alternatives_are_tried_in_order() {
    let domain = Domain::new();
    let ((a, a_rx), (b, b_rx)) = (domain.queue(), domain.queue());
    let next = || domain.select().on(a_rx.read(), |n: u32| n).on(b_rx.read(), |n: u32| n + 100).or(|| 0);
    assert_eq!(next(), Ok(0));
    b.send(1).unwrap();
    a.send(2).unwrap();
    assert_eq!([next(), next(), next()], [Ok(2), Ok(101), Ok(0)]);
}

#[test]
fn whole_transactions_are_alternatives() {
    let domain = Domain::new();
    let ((a, a_rx), (b, b_rx), (log, logs)) = (domain.queue(), domain.queue(), domain.queue());
    let next = || {
        domain
            .select()
            .on((a_rx.read(), b_rx.read(), log.write("both")), |(a, b, ()): (u32, u32, ())| a + b)
            .on((b_rx.read(), log.write("one")), |(b, ())| b)
            .or(|| 0)
            .unwrap()
    };
    b.send(1).unwrap();
    assert_eq!(next(), 1);
    a.send(2).unwrap();
    assert_eq!(next(), 0);
    b.send(3).unwrap();
    assert_eq!(next(), 5);
    assert_eq!(logs.try_iter().collect::<Vec<&str>>(), ["one", "both"]);
}

#[test]
fn a_selection_waits_and_has_a_time() {
    let domain = Domain::new();
    let ((a, a_rx), (_b, b_rx)) = (domain.queue::<u32>(), domain.queue::<u32>());
    let short = Duration::from_millis(10);
    let began = Instant::now();
    let none = domain.select().on(a_rx.read(), |_| ()).on(b_rx.read(), |_| ()).wait_timeout(short);
    assert!(none == Ok(None) && began.elapsed() >= short);
    let waiter = thread::spawn(move || domain.select().on(b_rx.read(), |n| n + 100).on(a_rx.read(), |n| n).wait());
    thread::sleep(short);
    a.send(7).unwrap();
    assert_eq!(waiter.join().unwrap(), Ok(7));
}

#[test]
fn what_is_not_written_is_dropped_or_written_later() {
    let domain = Domain::new();
    let (tx, rx) = domain.bounded::<String>(1).unwrap();
    tx.send("a".into()).unwrap();
    let sent = domain.select().on(tx.write("b".into()), |()| true).or(|| false);
    assert_eq!((sent, rx.len()), (Ok(false), 1));
    let writer = {
        let tx = tx.clone();
        thread::spawn(move || domain.select().on(tx.write("c".into()), |()| true).wait())
    };
    assert_eq!((rx.recv(), rx.recv()), (Ok("a".into()), Ok("c".into())));
    assert_eq!(writer.join().unwrap(), Ok(true));
}

#[test]
#[should_panic(expected = "without alternatives")]
fn a_selection_of_nothing_does_not_wait() {
    let _ = Domain::new().select::<()>().wait();
}

#[test]
fn the_macro_has_all_alternatives() {
    let domain = Domain::new();
    let ((tx, rx), (out, outs), (log, logs)) = (domain.closable(), domain.bounded(1).unwrap(), domain.queue());
    let step = || {
        select! {
            recv(rx) -> received => match received {
                Ok(number) => format!("received {number}"),
                Err(RecvError::Closed) => "closed".to_owned(),
                Err(error) => panic!("{error}"),
            },
            send(out, 5u8) -> sent => { sent.unwrap(); "sent".to_owned() }
            run((outs.read(), log.write(1))) -> (number, ()) => format!("moved {number}"),
            default => "nothing".to_owned(),
        }
    };
    tx.send(1).unwrap();
    assert_eq!([step(), step(), step()], ["received 1", "sent", "moved 5"]);
    drop(tx);
    assert_eq!((step(), logs.len()), ("closed".into(), 1));
}

#[test]
fn the_macro_has_a_default_and_a_time() {
    let (tx, rx) = yalwythen::queue::<u32>();
    let mut tries = 0;
    let got = loop {
        select! {
            recv(rx) -> received => break received,
            default() => {
                tries += 1;
                tx.send(tries).unwrap();
            }
        }
    };
    assert_eq!((got, tries), (Ok(1), 1));
    let late = select! {
        recv(rx) -> received => received.is_ok(),
        default(Duration::from_millis(5)) => false,
    };
    assert!(!late);
}

#[test]
fn the_macro_lets_errors_through() -> Result<(), SendError<u8>> {
    let (tx, rx) = yalwythen::closable::<u8>();
    tx.close();
    let last = || -> Result<(), SendError<u8>> {
        select! {
            send(tx, 7) -> sent => sent?,
        }
        Ok(())
    };
    assert_eq!(last(), Err(SendError::Closed(7)));
    select! {
        recv(rx) -> received => assert_eq!(received, Err(RecvError::Closed))
    }
    Ok(())
}

#[test]
fn the_macro_takes_subscribers() {
    let domain = Domain::new();
    let ((tx, rx), (_queue, queued)) = (domain.broadcast(), domain.queue::<u8>());
    tx.send(std::sync::Arc::new(3)).unwrap();
    let got = select! {
        recv(queued) -> number => number.unwrap(),
        recv(rx) -> number => *number.unwrap(),
    };
    assert_eq!(got, 3);
}

#[test]
#[should_panic(expected = "another domain")]
fn the_macro_needs_one_domain() {
    let ((_a, a_rx), (_b, b_rx)) = (yalwythen::queue::<u8>(), yalwythen::queue::<u8>());
    select! {
        recv(a_rx) -> _got => {}
        recv(b_rx) -> _got => {}
        default => {}
    }
}

#[test]
fn a_selection_ends_at_the_last_close() {
    const EACH: u64 = 3_000;
    let domain = Domain::new();
    let ((one, one_rx), (other, other_rx)) = (domain.closable::<u64>(), domain.closable::<u64>());
    let writers = [one, other].map(|tx| thread::spawn(move || (1..=EACH).for_each(|number| tx.send(number).unwrap())));
    let (mut sums, mut open) = ([0; 2], [true; 2]);
    let mut note = |place: usize, got: Option<u64>, open: &mut [bool; 2]| match got {
        Some(number) => sums[place] += number,
        None => open[place] = false,
    };
    while open != [false; 2] {
        let select = domain.select();
        let (place, got) = match open {
            [true, true] => select.on(one_rx.read(), |got| (0, got)).on(other_rx.read(), |got| (1, got)).wait(),
            [true, false] => select.on(one_rx.read(), |got| (0, got)).wait(),
            _ => select.on(other_rx.read(), |got| (1, got)).wait(),
        }
        .unwrap();
        note(place, got, &mut open);
    }
    assert_eq!(sums, [EACH * (EACH + 1) / 2; 2]);
    writers.into_iter().for_each(|writer| writer.join().unwrap());
}

#[test]
fn errors_have_words() {
    assert_eq!(RunError::OtherDomain.to_string(), "a step is on a channel of another domain");
}
