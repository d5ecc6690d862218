//! How the peer's stream ends over TCP, before and after this side's close, and the result of each call then.
use crate::end::End;
use crate::*;
use lcmux_tokio::lcmux::Channel::Data;
use lcmux_tokio::lcmux::SendError;
use std::time::Duration;
use tokio::io::AsyncWriteExt;

async fn end(end: End, mut stream: TcpStream) {
    stream.write_all(end.last_bytes()).await.unwrap();
    match end {
        // The peer continues to read, as after a half-close.
        End::Reset => drop(stream.set_linger(Some(Duration::ZERO))),
        _ => {
            stream.shutdown().await.unwrap();
            tokio::spawn(async move {
                let _ = tokio::io::copy(&mut stream, &mut tokio::io::sink()).await;
            });
        }
    }
}

async fn ends_as_it_is(last: End, is_closed_before: bool) {
    let (here, mut there) = tcp_pair().await;
    let (mut mux, run) = connect(here, rings(64)).unwrap();
    let (sender, mut receiver) = (
        mux.take_sender(Data).unwrap(),
        mux.take_receiver(Data).unwrap(),
    );
    there.write_all(&GREETING).await.unwrap();
    there.write_all(b"\x11\0\0\0\x02hi").await.unwrap();
    while receiver.book().buffered < 2 {
        tokio::time::sleep(Duration::from_millis(1)).await;
    }
    if is_closed_before {
        mux.close();
    }
    end(last, there).await;
    let what = format!("{last:?}, closed before: {is_closed_before}");
    assert_eq!(receiver.recv().await, Ok(Some(b"hi".to_vec())), "{what}");
    let received = receiver.recv().await;
    let sent = sender.send(b"more").await.unwrap_err();
    if last == End::InOrder {
        assert_eq!(received, Ok(None), "{what}");
        let closed = if is_closed_before {
            Closed::Local
        } else {
            Closed::Remote
        };
        assert_eq!(sent, SendError::Closed(closed), "{what}");
        mux.close();
        assert_eq!(mux.closed().await, Ok(()), "{what}");
        assert_eq!(run.await.unwrap(), Ok(()), "{what}");
        return;
    }
    let over = mux.closed().await.unwrap_err();
    assert!(last.is_reason(&over), "{what}: {over:?}");
    assert_eq!(received, Err(over.clone()), "{what}");
    assert_eq!(sent, SendError::Closed(over.clone()), "{what}");
    assert_eq!(run.await.unwrap(), Err(over), "{what}");
}

#[test]
fn each_end_of_the_peer_is_told_for_what_it_is() {
    for last in End::ALL {
        for is_closed_before in [false, true] {
            on_each("an end of the peer", move || {
                ends_as_it_is(last, is_closed_before)
            });
        }
    }
}
