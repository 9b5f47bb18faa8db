//! Typed transactions: all or nothing, with the values back if not.

use std::time::Duration;
use yalwythen::{Cause, Domain, RecvError, RunError, TryRecvError, TryRunError};

#[test]
fn steps_reply_by_their_kinds() {
    let domain = Domain::new();
    let (queue, queued) = domain.queue::<u32>();
    let (bounded, bounds) = domain.bounded::<String>(2).unwrap();
    let (closable, closables) = domain.closable::<Vec<u8>>();
    let ((), (), written): ((), (), Result<(), Vec<u8>>) =
        domain.run((queue.write(1), bounded.write("one".into()), closable.write(vec![1]))).unwrap();
    assert_eq!(written, Ok(()));
    let ((), late) = domain.run((closable.closing(), closable.write(vec![2]))).unwrap();
    assert_eq!(late, Err(vec![2]));
    let replies: (u32, String, Option<Vec<u8>>, Option<Vec<u8>>) =
        domain.run((queued.read(), bounds.read(), closables.read(), closables.read())).unwrap();
    assert_eq!(replies, (1, "one".into(), Some(vec![1]), None));
}

#[test]
fn steps_that_must_wait_come_back_with_their_values() {
    let domain = Domain::new();
    let ((tx, rx), (log, logs)) = (domain.bounded::<String>(1).unwrap(), domain.queue::<u32>());
    domain.run((tx.write("a".into()), log.write(1))).unwrap();
    let Err(TryRunError::Retry(steps, Cause::Full)) = domain.try_run((log.write(2), tx.write("b".into()))) else {
        panic!("the queue is full")
    };
    assert_eq!((logs.try_recv(), logs.try_recv()), (Ok(1), Err(TryRecvError::Empty)));
    let error = domain.run_timeout(steps, Duration::from_millis(5)).unwrap_err();
    assert_eq!(error.to_string(), "a queue is full");
    assert_eq!(rx.recv(), Ok("a".into()));
    domain.run(error.into_steps()).unwrap();
    assert_eq!((rx.recv(), logs.recv()), (Ok("b".into()), Ok(2)));
    let empty = domain.try_run(rx.read()).unwrap_err();
    assert!(matches!(empty, TryRunError::Retry(_, Cause::Empty)));
}

#[test]
fn steps_of_another_domain_are_an_error() {
    let (domain, other) = (Domain::new(), Domain::new());
    let ((tx, rx), (other_tx, other_rx)) = (domain.queue(), other.queue());
    assert_eq!(domain.run((tx.write(1), other_tx.write(2))), Err(RunError::OtherDomain));
    let Err(TryRunError::OtherDomain((one, two))) = domain.try_run((tx.write(1), other_tx.write(2))) else { panic!() };
    assert_eq!((one.into_value(), two.into_value()), (1, 2));
    assert!(matches!(domain.run(rx.pass_on(&other_tx)), Err(RunError::OtherDomain)));
    assert_eq!(domain.select().on(rx.read(), |_| ()).on(other_rx.read(), |_| ()).wait(), Err(RunError::OtherDomain));
    assert!(rx.is_empty() && other_rx.is_empty());
    assert!(tx.domain().same_domain(&domain) && !rx.domain().same_domain(&other));
}

#[test]
fn a_value_is_passed_on_until_the_end() {
    let domain = Domain::new();
    let ((from, source), (to, sink)) = (domain.closable::<String>(), domain.closable::<String>());
    from.send("a".into()).unwrap();
    from.send("b".into()).unwrap();
    from.close();
    let mut count = 0;
    while let Some(passed) = domain.run(source.pass_on(&to)).unwrap() {
        assert_eq!(passed, Ok(()));
        count += 1;
    }
    assert_eq!(count, 2);
    to.close();
    assert_eq!(sink.iter().collect::<Vec<String>>(), ["a", "b"]);
    // What cannot be passed on to a closed queue comes back.
    let (again, source) = domain.queue();
    again.send("c".to_owned()).unwrap();
    assert_eq!(domain.run(source.pass_on(&to)), Ok(Err("c".into())));
}

#[test]
fn a_value_at_the_end_is_passed_on_among_other_steps() {
    let domain = Domain::new();
    let ((from, source), (to, sink), (log, logs)) = (domain.closable::<u8>(), domain.queue(), domain.queue::<u8>());
    drop(from);
    assert_eq!(domain.run((log.write(1), source.pass_on(&to), log.write(2))), Ok(((), None, ())));
    assert_eq!((logs.len(), sink.len()), (2, 0));
    // What another step has read is not passed on.
    assert_eq!(domain.run((logs.read(), source.pass_on(&to))), Ok((1, None)));
    assert_eq!(domain.run((logs.peek(), source.pass_on(&to), logs.read())), Ok((2, None, 2)));
    assert_eq!((logs.len(), sink.len()), (0, 0));
}

#[test]
fn a_peek_leaves_the_value() {
    let domain = Domain::new();
    let ((tx, rx), (end, ended)) = (domain.queue::<String>(), domain.closable::<u8>());
    tx.send("here".into()).unwrap();
    assert_eq!(domain.run((rx.peek(), rx.read())).unwrap(), ("here".into(), "here".into()));
    assert!(domain.try_run(rx.peek()).is_err());
    drop(end);
    assert_eq!(domain.run(ended.peek()), Ok(None));
}

#[test]
fn a_transaction_may_have_eight_channels() {
    let domain = Domain::new();
    let ends: Vec<_> = (0..8).map(|_| domain.queue::<usize>()).collect();
    let write = |n: usize| ends[n].0.write(n);
    domain.run((write(0), write(1), write(2), write(3), write(4), write(5), write(6), write(7))).unwrap();
    let read = |n: usize| ends[n].1.read();
    let replies = domain.run((read(0), read(1), read(2), read(3), read(4), read(5), read(6), read(7))).unwrap();
    assert_eq!(replies, (0, 1, 2, 3, 4, 5, 6, 7));
    let Err(TryRunError::Retry(..)) = domain.try_run((write(0), read(1), write(2), read(3), write(4), read(5))) else {
        panic!("nothing is left to read")
    };
    assert!(ends.iter().all(|(_, rx)| rx.is_empty()));
}

#[test]
fn tuples_may_be_nested() {
    let domain = Domain::new();
    let (tx, rx) = domain.queue();
    domain.run(((tx.write(1), tx.write(2)), tx.write(3))).unwrap();
    assert_eq!(domain.run(((rx.read(), rx.read()), rx.read())), Ok(((1, 2), 3)));
}

#[test]
fn a_domain_may_have_many_channels() {
    let domain = Domain::new();
    let ends: Vec<_> = (0..2_000u32).map(|number| (number, domain.queue())).collect();
    ends.iter().for_each(|(number, (tx, _))| tx.send(*number).unwrap());
    assert!(ends.iter().all(|(number, (_, rx))| rx.recv() == Ok(*number)));
    assert_eq!(domain.channel_count(), 2_000);
}

#[test]
fn a_bound_ends_at_65_535() {
    let domain = Domain::new();
    assert!(domain.bounded::<u8>(65_535).is_ok() && domain.bounded_closable::<u8>(65_535).is_ok());
    let error = domain.bounded::<u8>(65_536).unwrap_err();
    assert_eq!((error.bound, error.to_string()), (65_536, "the bound 65536 is over 65,535".into()));
    assert!(yalwythen::bounded_closable::<u8>(usize::MAX).is_err());
    assert_eq!(domain.channel_count(), 2);
}

#[test]
fn errors_need_no_debug_of_the_value() {
    type Job = Box<dyn FnOnce() -> u8 + Send>;
    let (tx, rx) = yalwythen::closable::<Job>();
    tx.send(Box::new(|| 7)).unwrap();
    assert_eq!(rx.recv().unwrap()(), 7);
    tx.close();
    let error = tx.send(Box::new(|| 8)).unwrap_err();
    assert_eq!(format!("{error:?}: {error}"), "SendError(sending on a closed channel): sending on a closed channel");
    assert_eq!(error.into_inner()(), 8);
    assert_eq!(rx.recv().err(), Some(RecvError::Closed));
    fn is_error<E: std::error::Error>() {}
    is_error::<yalwythen::SendError<Job>>();
    is_error::<yalwythen::TrySendError<Job>>();
    is_error::<yalwythen::SendTimeoutError<Job>>();
}

#[test]
fn ends_cross_threads() {
    use yalwythen::{Receiver, Sender, Subscriber, kinds};
    fn crosses<T: Send + Sync + std::panic::UnwindSafe + std::panic::RefUnwindSafe + 'static>() {}
    crosses::<Domain>();
    crosses::<Sender<std::cell::Cell<u8>, kinds::Queue>>();
    crosses::<Receiver<std::cell::Cell<u8>, kinds::BoundedClosable>>();
    crosses::<Subscriber<u8, kinds::Broadcast>>();
}
