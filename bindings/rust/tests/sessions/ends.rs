//! How the peer's stream ends over TCP, before and after this side's close, and the result of each call on threads.
use crate::end::End;
use crate::watchdog::Watchdog;
use crate::*;
use lcmux::Channel::Data;
use lcmux::{Closed, Driver, Mux, SendError};
use std::io::{Read, Write};
use std::net::{Shutdown, TcpListener, TcpStream};
use std::thread::{self, JoinHandle};
use std::time::Duration;

fn end(end: End, mut stream: TcpStream) -> JoinHandle<()> {
    stream.write_all(end.last_bytes()).unwrap();
    match end {
        // A connection that is dropped while bytes are unread is reset.
        End::Reset => drop(stream.peek(&mut [0]).unwrap()),
        _ => stream.shutdown(Shutdown::Write).unwrap(),
    }
    thread::spawn(
        move || {
            while end != End::Reset && matches!(stream.read(&mut [0; 4096]), Ok(1..)) {}
        },
    )
}

// Waits until the other side has written these bytes, its last ones. They stay unread.
fn until_written(last: &[u8], stream: &TcpStream) {
    let mut bytes = [0; 4096];
    loop {
        let count = stream.peek(&mut bytes).unwrap();
        if bytes[..count].ends_with(last) {
            return;
        }
        thread::sleep(Duration::from_millis(1));
    }
}

fn run(driver: Driver, stream: TcpStream) -> JoinHandle<Result<(), Closed>> {
    thread::spawn(move || driver.run_blocking(stream.try_clone()?, stream))
}

fn ends_as_it_is(last: End, is_closed_before: bool) {
    let what = format!("{last:?}, closed before: {is_closed_before}");
    let listener = TcpListener::bind("127.0.0.1:0").unwrap();
    let here = TcpStream::connect(listener.local_addr().unwrap()).unwrap();
    let mut there = listener.accept().unwrap().0;
    let (mut mux, driver) = Mux::new(by_caller(14)).unwrap();
    let run = run(driver, here);
    let (sender, mut receiver) = (
        mux.take_sender(Data).unwrap(),
        mux.take_receiver(Data).unwrap(),
    );
    receiver.issue(2).unwrap();
    there.write_all(&greeted("send 1 6869")).unwrap();
    while receiver.book().buffered < 2 {
        thread::sleep(Duration::from_millis(1));
    }
    // A reset is told once: by a read, since nothing is written after it.
    match is_closed_before {
        true => {
            mux.close();
            until_written(&finishes(), &there);
        }
        false => until_written(&frames("issue 1 2"), &there),
    }
    let reading = end(last, there);
    assert_eq!(receiver.recv_blocking(), Ok(Some(b"hi".to_vec())), "{what}");
    let received = receiver.recv_blocking();
    let sent = sender.send_blocking(b"more").unwrap_err();
    if last == End::InOrder {
        assert_eq!(received, Ok(None), "{what}");
        let closed = if is_closed_before {
            Closed::Local
        } else {
            Closed::Remote
        };
        assert_eq!(sent, SendError::Closed(closed), "{what}");
        mux.close();
        assert_eq!(mux.closed_blocking(), Ok(()), "{what}");
        assert_eq!(run.join().unwrap(), Ok(()), "{what}");
    } else {
        let over = mux.closed_blocking().unwrap_err();
        assert!(last.is_reason(&over), "{what}: {over:?}");
        assert_eq!(received, Err(over.clone()), "{what}");
        assert_eq!(sent, SendError::Closed(over.clone()), "{what}");
        assert_eq!(run.join().unwrap(), Err(over), "{what}");
    }
    reading.join().unwrap();
}

#[test]
fn each_end_of_the_peer_is_told_for_what_it_is() {
    let _watchdog = Watchdog::new("ends of the peer");
    for last in End::ALL {
        for is_closed_before in [false, true] {
            ends_as_it_is(last, is_closed_before);
        }
    }
}
