//! Dropped handles: clones, early returns, aborted tasks and panics, as the peer observes them.
use crate::*;
use lcmux_tokio::lcmux::Channel::Data;
use lcmux_tokio::lcmux::{Receiver, SendError, Sender};
use std::future::pending;

/// Receives messages until the channel ends.
async fn all(mut receiver: Receiver) -> (usize, Option<Closed>) {
    let mut count = 0;
    loop {
        match receiver.recv().await {
            Ok(Some(_)) => count += 1,
            Ok(None) => return (count, None),
            Err(closed) => return (count, Some(closed)),
        }
    }
}

/// Whether it is the end of a stream that was cut, or of a write that failed before.
fn is_cut(closed: &Closed) -> bool {
    matches!(closed, Closed::Cut | Closed::Transport(_))
}

struct Sides {
    mux: Mux,
    run: Run,
    there: Run,
    taken: JoinHandle<(usize, Option<Closed>)>,
    _other: Mux,
}

fn sides() -> (Sides, Sender) {
    let [(mut mux, run), (mut other, there)] = in_memory(rings(64));
    let sender = mux.take_sender(Data).unwrap();
    let taken = tokio::spawn(all(other.take_receiver(Data).unwrap()));
    let sides = Sides {
        mux,
        run,
        there,
        taken,
        _other: other,
    };
    (sides, sender)
}

#[test]
fn a_channel_is_finished_with_its_last_clone() {
    on_each("clones", || async {
        let (sides, sender) = sides();
        let clones = [sender.clone(), sender.clone()];
        let tasks = clones.map(|clone| tokio::spawn(async move { clone.send(b"hello").await }));
        for task in tasks {
            assert_eq!(task.await.unwrap(), Ok(()));
        }
        sender.send(b"last").await.unwrap();
        assert!(!sides.taken.is_finished());
        drop(sender);
        assert_eq!(sides.taken.await.unwrap(), (3, None));
    });
}

#[test]
fn a_clone_that_a_panic_drops_aborts_the_session() {
    on_each("a clone and a panic", || async {
        let (sides, sender) = sides();
        let clone = sender.clone();
        let task = tokio::spawn(async move {
            clone.send(b"half").await.unwrap();
            std::panic::resume_unwind(Box::new("a task panics"));
        });
        assert!(task.await.unwrap_err().is_panic());
        assert_eq!(sides.mux.closed().await, Err(Closed::Aborted));
        let sent = sender.send(b"rest").await;
        assert_eq!(sent, Err(SendError::Closed(Closed::Aborted)));
        assert_eq!(sides.run.await.unwrap(), Err(Closed::Aborted));
        let closed = sides.taken.await.unwrap().1.unwrap();
        assert!(is_cut(&closed), "{closed:?}");
        assert_eq!(sides.there.await.unwrap(), Err(closed));
    });
}

/// An aborted task drops its sender just as a task that is done; a kept clone distinguishes the two.
#[test]
fn an_aborted_task_looks_like_an_end_unless_a_clone_is_kept() {
    on_each("an aborted task", || async {
        for is_kept in [false, true] {
            let (sides, sender) = sides();
            let kept = is_kept.then(|| sender.clone());
            let task = tokio::spawn(async move {
                sender.send(b"half").await.unwrap();
                pending::<()>().await;
            });
            while sides.mux.stats()[Data].messages_sent == 0 {
                tokio::task::yield_now().await;
            }
            task.abort();
            assert!(task.await.unwrap_err().is_cancelled());
            if is_kept {
                sides.mux.abort();
            }
            drop(kept);
            match sides.taken.await.unwrap().1 {
                Some(closed) => assert!(is_kept && is_cut(&closed), "{closed:?}"),
                None => assert!(!is_kept),
            }
        }
    });
}
