//! Tasks that stop polling a send: they delay no other channel.
use crate::*;
use lcmux_tokio::lcmux::Channel::{Data, Overlap};
use lcmux_tokio::lcmux::{Receiver, Sender, CHANNELS};
use std::future::poll_fn;
use std::io;
use std::mem;
use std::pin::{pin, Pin};
use std::sync::{mpsc, Arc};
use std::task::{Context, Poll};
use std::time::Duration;
use tokio::io::ReadBuf;
use tokio::select;
use tokio::sync::oneshot;
use tokio::time::{sleep, timeout};

async fn echo(sender: Sender, mut receiver: Receiver) {
    while let Ok(Some(message)) = receiver.recv().await {
        if sender.send(&message).await.is_err() {
            return;
        }
    }
}

async fn count(mut receiver: Receiver) -> usize {
    let mut count = 0;
    while let Ok(Some(_)) = receiver.recv().await {
        count += 1;
    }
    count
}

// Sends a request and waits for the answer, repeatedly.
async fn ask(sender: Sender, mut receiver: Receiver, count: u32) {
    for number in 0..count {
        sender.send(&number.to_be_bytes()).await.unwrap();
        let answer = receiver.recv().await.unwrap().unwrap();
        assert_eq!(answer, number.to_be_bytes());
    }
}

// One task pins each upload, and answers requests on another channel in a branch of a `select!` meanwhile.
async fn upload_and_answer(mux: &mut Mux, uploads: usize, len: usize) {
    let (data, answers) = (
        mux.take_sender(Data).unwrap(),
        mux.take_sender(Overlap).unwrap(),
    );
    let mut requests = mux.take_receiver(Overlap).unwrap();
    let body = vec![7; len];
    for _ in 0..uploads {
        let mut upload = pin!(data.send(&body));
        loop {
            select! {
                sent = &mut upload => break sent.unwrap(),
                request = requests.recv() => {
                    if let Some(request) = request.unwrap() {
                        answers.send(&request).await.unwrap();
                    }
                }
            }
        }
    }
    while let Some(request) = requests.recv().await.unwrap() {
        answers.send(&request).await.unwrap();
    }
}

#[test]
fn a_select_loop_answers_while_its_upload_is_not_polled() {
    for (slots, len) in [(14, 16), (64, 16), (14, 1_000), (64, 1_000), (14, 65_536)] {
        on_each("a select loop", move || async move {
            let mut config = Config::new([65_536; CHANNELS], slots);
            config.version = Version::Two;
            let [(mut here, run), (mut there, other)] = in_memory(config);
            let uploads = tokio::spawn(count(there.take_receiver(Data).unwrap()));
            let (sender, receiver) = (
                there.take_sender(Overlap).unwrap(),
                there.take_receiver(Overlap).unwrap(),
            );
            let asking = tokio::spawn(ask(sender, receiver, 400));
            let answering = upload_and_answer(&mut here, 500, len);
            timeout(Duration::from_secs(60), answering)
                .await
                .expect("a deadlock");
            asking.await.unwrap();
            drop((here, there));
            assert_eq!(uploads.await.unwrap(), 500);
            assert_eq!(run.await.unwrap(), Ok(()));
            assert_eq!(other.await.unwrap(), Ok(()));
        });
    }
}

async fn ping(sender: &Sender, receiver: &mut Receiver, count: usize) {
    for _ in 0..count {
        sender.send(b"ping").await.unwrap();
        assert_eq!(receiver.recv().await.unwrap().unwrap(), b"ping");
    }
}

/// A send is polled for a while, and then its task works without an await: pings on another channel continue. The work
/// ends after them.
#[test]
fn a_timeout_beside_disk_work_holds_up_no_other_channel() {
    for len in [9, 60_000] {
        let runtime = multi_thread();
        let _watchdog = Watchdog::new("disk work");
        runtime.block_on(async {
            let [(mut here, _run), (mut there, _other)] = in_memory(rings(65_536));
            let back = echo(
                there.take_sender(Overlap).unwrap(),
                there.take_receiver(Overlap).unwrap(),
            );
            tokio::spawn(back);
            let (data, mut uploads) = (
                here.take_sender(Data).unwrap(),
                there.take_receiver(Data).unwrap(),
            );
            let (stuck, is_stuck) = oneshot::channel();
            let (end, ends) = mpsc::channel();
            let work = tokio::spawn(async move {
                let body = vec![7; len];
                for _ in 0..65_536 / len {
                    data.send(&body).await.unwrap();
                }
                let mut send = pin!(data.send(&body));
                assert!(timeout(Duration::from_millis(50), &mut send).await.is_err());
                stuck.send(()).unwrap();
                ends.recv().unwrap();
                send.await.unwrap();
            });
            is_stuck.await.unwrap();
            let (taken, are_taken) = oneshot::channel();
            let taking = tokio::spawn(async move {
                for _ in 0..65_536 / len {
                    uploads.recv().await.unwrap().unwrap();
                }
                taken.send(()).unwrap();
                uploads.recv().await.unwrap().unwrap();
            });
            let (sender, mut receiver) = (
                here.take_sender(Overlap).unwrap(),
                here.take_receiver(Overlap).unwrap(),
            );
            let pings = async {
                ping(&sender, &mut receiver, 500).await;
                are_taken.await.unwrap(); // the send has its guarantees after the next ping
                ping(&sender, &mut receiver, 500).await;
            };
            timeout(Duration::from_secs(60), pings)
                .await
                .expect("the work holds up the pings");
            end.send(()).unwrap();
            work.await.unwrap();
            taking.await.unwrap();
        });
    }
}

/// Futures of six channels are leaked once they were polled, and permits, too: the seventh channel still works.
#[test]
fn forgotten_futures_hold_up_no_other_channel() {
    for len in [1, 1_000, 60_000] {
        on_each("forgotten futures", move || async move {
            let [(mut here, _run), (mut there, _other)] = in_memory(rings(131_072));
            for channel in Channel::ALL.into_iter().filter(|it| *it != Overlap) {
                let (sender, receiver) = (
                    here.take_sender(channel).unwrap(),
                    there.take_receiver(channel).unwrap(),
                );
                let kept = Arc::new(sender);
                let sender = Arc::clone(&kept);
                let mut call: Pin<Box<dyn Future<Output = ()> + Send>> = Box::pin(async move {
                    loop {
                        sender.send(&vec![7; len]).await.unwrap();
                    }
                });
                assert!(poll_fn(|cx| Poll::Ready(call.as_mut().poll(cx)))
                    .await
                    .is_pending());
                mem::forget((call, kept.try_reserve(1).map(mem::forget)));
                mem::forget(kept);
                tokio::spawn(count(receiver));
            }
            let back = echo(
                there.take_sender(Overlap).unwrap(),
                there.take_receiver(Overlap).unwrap(),
            );
            tokio::spawn(back);
            let (sender, receiver) = (
                here.take_sender(Overlap).unwrap(),
                here.take_receiver(Overlap).unwrap(),
            );
            let asking = ask(sender, receiver, 1_000);
            timeout(Duration::from_secs(60), asking)
                .await
                .expect("it hangs");
        });
    }
}

/// A stream that buffers all bytes until it is flushed, as one with compression does.
struct Buffering {
    stream: DuplexStream,
    held: Vec<u8>,
}

impl AsyncRead for Buffering {
    fn poll_read(
        mut self: Pin<&mut Self>,
        cx: &mut Context<'_>,
        buffer: &mut ReadBuf<'_>,
    ) -> Poll<io::Result<()>> {
        Pin::new(&mut self.stream).poll_read(cx, buffer)
    }
}

impl AsyncWrite for Buffering {
    fn poll_write(
        mut self: Pin<&mut Self>,
        _: &mut Context<'_>,
        bytes: &[u8],
    ) -> Poll<io::Result<usize>> {
        self.held.extend(bytes);
        Poll::Ready(Ok(bytes.len()))
    }

    fn poll_flush(mut self: Pin<&mut Self>, cx: &mut Context<'_>) -> Poll<io::Result<()>> {
        let this = &mut *self;
        while !this.held.is_empty() {
            let count = match Pin::new(&mut this.stream).poll_write(cx, &this.held) {
                Poll::Ready(count) => count?,
                Poll::Pending => return Poll::Pending,
            };
            this.held.drain(..count);
        }
        Pin::new(&mut this.stream).poll_flush(cx)
    }

    fn poll_shutdown(mut self: Pin<&mut Self>, cx: &mut Context<'_>) -> Poll<io::Result<()>> {
        match self.as_mut().poll_flush(cx) {
            Poll::Ready(Ok(())) => Pin::new(&mut self.stream).poll_shutdown(cx),
            polled => polled,
        }
    }
}

#[test]
fn what_is_written_is_flushed_before_the_session_waits() {
    on_each("a stream that keeps bytes", || async {
        let (here, there) = tokio::io::duplex(100);
        let sides = [here, there].map(|stream| Buffering {
            stream,
            held: Vec::new(),
        });
        let [(mut here, run), (mut there, other)] =
            sides.map(|side| connect(side, rings(64)).unwrap());
        let back = echo(
            there.take_sender(Overlap).unwrap(),
            there.take_receiver(Overlap).unwrap(),
        );
        tokio::spawn(back);
        let (sender, receiver) = (
            here.take_sender(Overlap).unwrap(),
            here.take_receiver(Overlap).unwrap(),
        );
        let asking = ask(sender, receiver, 100);
        timeout(Duration::from_secs(60), asking)
            .await
            .expect("it hangs");
        drop((here, there));
        assert_eq!(run.await.unwrap(), Ok(()));
        assert_eq!(other.await.unwrap(), Ok(()));
    });
}

/// Beside a loop of calls that are always ready, another task of the same thread still runs.
#[test]
fn a_loop_that_is_always_ready_lets_other_tasks_run() {
    let runtime = current_thread();
    let _watchdog = Watchdog::new("a loop that is always ready");
    runtime.block_on(async {
        let [(mut here, _run), (mut there, _other)] = in_memory(rings(1 << 20));
        let (sender, mut receiver) = (
            here.take_sender(Data).unwrap(),
            there.take_receiver(Data).unwrap(),
        );
        let stored = 20_000;
        for _ in 0..stored {
            sender.send(b"x").await.unwrap();
        }
        while receiver.book().buffered < stored {
            sleep(Duration::from_millis(1)).await;
        }
        let turns = Arc::new(std::sync::atomic::AtomicUsize::new(0));
        let counted = Arc::clone(&turns);
        let other = tokio::spawn(async move {
            loop {
                counted.fetch_add(1, std::sync::atomic::Ordering::Relaxed);
                tokio::task::yield_now().await;
            }
        });
        for _ in 0..stored {
            receiver.recv().await.unwrap().unwrap();
        }
        let turns = turns.load(std::sync::atomic::Ordering::Relaxed);
        assert!(
            turns >= stored as usize / 129,
            "{turns} turns beside {stored} messages"
        );
        other.abort();
    });
}
