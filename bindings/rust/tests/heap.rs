//! The allocations of peers: the `malloc`, `calloc`, `realloc` and `free` of this program count the requests of a
//! thread and refuse one of them.
use lcmux::{
    Channel::Data, Config, Mux, Peer, PeerFault, PollRead, Refusal, TrySendError, Version, CHANNELS,
};
use std::cell::Cell;
use std::ffi::c_void;
use std::io::{self, IoSlice, Read};
use std::sync::Arc;
use std::task::{Context, Poll, Wake, Waker};
use std::time::Duration;
use std::{ptr, slice};

/// The requests of a thread since it is watched.
#[derive(Clone, Copy, Debug, PartialEq)]
struct Heap {
    requests: usize,
    /// The request that is refused, from 1; 0 for none.
    refused: usize,
    /// The bytes of the last request.
    size: usize,
    /// Blocks that were allocated and not freed.
    live: isize,
}

thread_local! {
    static HEAP: Cell<Heap> = const { Cell::new(Heap { requests: 0, refused: 0, size: 0, live: 0 }) };
}

extern "C" {
    fn __libc_malloc(size: usize) -> *mut c_void;
    fn __libc_calloc(count: usize, size: usize) -> *mut c_void;
    fn __libc_realloc(at: *mut c_void, size: usize) -> *mut c_void;
    fn __libc_free(at: *mut c_void);
}

/// Returns whether a request is granted. `blocks` is how many blocks it adds.
fn is_granted(size: usize, blocks: isize) -> bool {
    let mut heap = HEAP.get();
    heap.requests += 1;
    heap.size = size;
    let granted = heap.requests != heap.refused;
    heap.live += if granted { blocks } else { 0 };
    HEAP.set(heap);
    granted
}

#[no_mangle]
unsafe extern "C" fn malloc(size: usize) -> *mut c_void {
    match is_granted(size, 1) {
        true => __libc_malloc(size),
        false => ptr::null_mut(),
    }
}

#[no_mangle]
unsafe extern "C" fn calloc(count: usize, size: usize) -> *mut c_void {
    match is_granted(count * size, 1) {
        true => __libc_calloc(count, size),
        false => ptr::null_mut(),
    }
}

#[no_mangle]
unsafe extern "C" fn realloc(at: *mut c_void, size: usize) -> *mut c_void {
    match is_granted(size, isize::from(at.is_null())) {
        true => __libc_realloc(at, size),
        false => ptr::null_mut(),
    }
}

#[no_mangle]
unsafe extern "C" fn free(at: *mut c_void) {
    let mut heap = HEAP.get();
    heap.live -= isize::from(!at.is_null());
    HEAP.set(heap);
    __libc_free(at)
}

/// The result of a call and its requests, if the request of this number is refused.
fn watched<T>(refused: usize, call: impl FnOnce() -> T) -> (T, Heap) {
    HEAP.set(Heap {
        requests: 0,
        refused,
        size: 0,
        live: 0,
    });
    let answer = call();
    let heap = HEAP.get();
    // Later requests are granted.
    HEAP.set(Heap { refused: 0, ..heap });
    (answer, heap)
}

#[test]
fn each_request_of_a_new_peer_is_refused_in_turn() {
    let config = Config::new([8; CHANNELS], 4);
    for refused in 1..=18 {
        let (made, heap) = watched(refused, || Peer::new(&config).err());
        assert_eq!(made, Some(PeerFault::OutOfMemory));
        assert_eq!((heap.requests, heap.live), (refused, 0));
    }
    let (peer, made) = watched(19, || Peer::new(&config).unwrap());
    assert_eq!((made.requests, made.live), (18, 18));
    let ((), dropped) = watched(0, || drop(peer));
    assert_eq!((dropped.requests, dropped.live), (0, -18));
    let (_, bad) = watched(0, || Peer::new(&Config::new([0; CHANNELS], 4)).is_err());
    assert_eq!((bad.requests, bad.live), (0, 0));
}

#[test]
fn a_send_that_is_refused_memory_changes_nothing() {
    let mut peer = Peer::new(&Config::new([8; CHANNELS], 4)).unwrap();
    assert_eq!(peer.deliver(&[0x21, 0, 0, 0, 5]).frames, 1);
    let (sent, heap) = watched(1, || peer.send(Data, b"hello"));
    assert_eq!(sent, Err(Refusal::OutOfMemory));
    assert_eq!((heap.requests, heap.live), (1, 0));
    assert_eq!((peer.client(Data).held, peer.pending()), (5, 0));

    let (sent, heap) = watched(2, || peer.send(Data, b"hello"));
    assert_eq!(sent, Ok(()));
    assert_eq!((heap.requests, heap.size, heap.live), (1, 5, 1));
    let (count, heap) = watched(1, || peer.write(&mut [0; 8]));
    assert_eq!((count, heap.requests, heap.live), (8, 0, -1));
}

/// A message in the ring, a pending frame, and a frame that is written in part.
#[test]
fn a_peer_gives_back_what_waits_in_it() {
    let config = Config::new([8; CHANNELS], 4);
    let ((), heap) = watched(0, || {
        let mut peer = Peer::new(&config).unwrap();
        peer.issue(Data, 5).unwrap();
        assert_eq!(peer.deliver(b"\x21\0\0\0\x05\x11\0\x02hi").frames, 2);
        assert_eq!(peer.write(&mut [0; 5]), 5);
        peer.send(Data, b"one").unwrap();
        peer.send(Data, b"2").unwrap();
        assert_eq!(peer.write(&mut [0; 1]), 1);
    });
    assert_eq!(heap.live, 0);
}

#[test]
fn the_first_write_and_the_first_read_ask_for_16_kib_and_no_later_one_for_any() {
    let mut peer = Peer::new(&Config::new([8; CHANNELS], 4)).unwrap();
    let mut wire = Vec::with_capacity(64);
    for requests in [1, 0] {
        peer.issue(Data, 4).unwrap();
        let (_, heap) = watched(0, || peer.write_to(&mut wire).unwrap());
        assert_eq!((heap.requests, heap.size), (requests, 16_384 * requests));
        let (_, heap) = watched(0, || peer.read_from(&mut wire.as_slice()).unwrap());
        assert_eq!((heap.requests, heap.size), (requests, 16_384 * requests));
    }
    let ((), heap) = watched(0, || drop(peer));
    assert_eq!(heap.live, -20);
}

/// The functions that the archive calls in place of `malloc`, `realloc` and `free`.
mod edge {
    use super::c_void;

    #[repr(C)]
    pub struct Tried {
        pub ok: bool,
        pub at: *mut c_void,
    }

    extern "C" {
        pub fn lcmux_rs_alloc(size: usize, align: usize) -> Tried;
        pub fn lcmux_rs_realloc(at: *mut c_void, kept: usize, size: usize, align: usize) -> Tried;
        pub fn lcmux_rs_dealloc(at: *mut c_void);
    }
}

/// Sizes and alignments, with the bytes that have to be requested: some, even for a size of 0.
const REQUESTS: [(usize, usize, usize); 6] = [
    (0, 1, 1),
    (0, 16, 16),
    (1, 1, 1),
    (24, 8, 24),
    (48, 16, 48),
    (1 << 20, 16, 1 << 20),
];

fn bytes_at<'a>(at: *mut c_void, len: usize) -> &'a mut [u8] {
    unsafe { slice::from_raw_parts_mut(at.cast(), len) }
}

#[test]
fn a_block_is_got_and_given_back() {
    for (size, align, asked) in REQUESTS {
        let (tried, heap) = watched(0, || unsafe { edge::lcmux_rs_alloc(size, align) });
        assert!(tried.ok);
        assert_eq!(tried.at as usize % align, 0);
        assert_eq!((heap.requests, heap.size, heap.live), (1, asked, 1));
        bytes_at(tried.at, size).fill(7);
        let ((), heap) = watched(0, || unsafe { edge::lcmux_rs_dealloc(tried.at) });
        assert_eq!(heap.live, -1);

        let (tried, heap) = watched(1, || unsafe { edge::lcmux_rs_alloc(size, align) });
        assert!(!tried.ok && !tried.at.is_null());
        assert_eq!((heap.requests, heap.live), (1, 0));
    }
}

#[test]
fn a_block_keeps_its_bytes_when_it_moves_and_when_that_is_refused() {
    for (size, align, asked) in REQUESTS {
        let old = unsafe { edge::lcmux_rs_alloc(16, align) }.at;
        bytes_at(old, 16).copy_from_slice(b"what was in here");
        let kept = size.min(16);
        let moved = |refused| {
            watched(refused, || unsafe {
                edge::lcmux_rs_realloc(old, kept, size, align)
            })
        };
        let (tried, heap) = moved(1);
        assert!(!tried.ok && !tried.at.is_null());
        assert_eq!((heap.requests, heap.live), (1, 0));
        assert_eq!(bytes_at(old, 16), b"what was in here");

        let (tried, heap) = moved(0);
        assert!(tried.ok);
        assert_eq!((heap.requests, heap.size, heap.live), (1, asked, 0));
        assert_eq!(bytes_at(tried.at, kept), &b"what was in here"[..kept]);
        bytes_at(tried.at, size).fill(7);
        unsafe { edge::lcmux_rs_dealloc(tried.at) };
    }
}

/// A reader borrows each message in the ring, also on a thread that blocks.
#[test]
fn a_reader_allocates_nothing_for_a_message() {
    let (mut mux, mut driver) = Mux::new(Config::new([64; CHANNELS], 16)).unwrap();
    let mut reader = mux.take_receiver(Data).unwrap().into_reader();
    reader.set_timeout(Some(Duration::from_secs(60))); // no thread moves the bytes: it would wait for good
    let waker = Waker::from(Arc::new(Ignored));
    let mut cx = Context::from_waker(&waker);
    let mut requests = Vec::new();
    for round in 0..20 {
        let mut message = Inbound(&[[0x11, 0, 40].as_slice(), &[round; 40]].concat());
        assert!(driver.poll_read(&mut cx, &mut message).is_pending());
        let (read, heap) = watched(0, || {
            let mut bytes = [0; 40];
            let mut polled = [0; 4];
            assert!(reader.poll_read(&mut cx, &mut polled).is_ready());
            reader.read_exact(&mut bytes[4..]).map(|()| (bytes, polled))
        });
        let (bytes, polled) = read.unwrap();
        assert_eq!((&bytes[4..], polled), (&[round; 36][..], [round; 4]));
        requests.push(heap.requests);
        assert!(driver.poll_write(&mut cx, &mut Vec::new()).is_pending());
    }
    assert_eq!(requests[1..], [0; 19]);
}

/// The peer allocates for each message. The memory in which slices are joined is kept, unless it is long.
#[test]
fn a_message_of_slices_allocates_what_one_of_one_slice_does() {
    let (mut mux, mut driver) = Mux::new(Config::new([64; CHANNELS], 16)).unwrap();
    let sender = mux.take_sender(Data).unwrap();
    let waker = Waker::from(Arc::new(Ignored));
    let mut cx = Context::from_waker(&waker);
    let mut issued = Inbound(b"\x21\0\x10\0\0");
    assert!(driver.poll_read(&mut cx, &mut issued).is_pending());
    let (short, long) = ([7; 100], [7; 40_000]);
    let mut send = |parts: [&[u8]; 2], refused| {
        let slices = parts.map(IoSlice::new);
        let (sent, heap) = watched(refused, || sender.try_send_vectored(&slices));
        assert!(driver.poll_write(&mut cx, &mut Vec::new()).is_pending());
        (sent, heap.requests, heap.live)
    };
    assert_eq!(send([&short, &short], 0).0, Ok(()));
    for _ in 0..3 {
        assert_eq!(send([&short, &short], 0), (Ok(()), 1, 1));
    }
    assert_eq!(send([&long, &short], 0), (Ok(()), 2, 1)); // more memory in place of the first
    assert_eq!(send([&long, &short], 0), (Ok(()), 1, 1));

    let refusal = Err(TrySendError::from(Refusal::OutOfMemory));
    assert_eq!(send([&long, &short], 1), (refusal.clone(), 1, 0));
    assert_eq!(send([&long, &long[1..20_000]], 1), (refusal, 1, -1));
    assert_eq!(send([&long, &long[..20_000]], 0), (Ok(()), 2, 2));
    assert_eq!(sender.stats().messages_sent, 7);
}

/// A message that is filled in place allocates in the peer alone, once the session has memory of its length.
#[test]
fn a_filled_message_allocates_what_a_message_of_slices_does() {
    for is_owned in [false, true] {
        let (mut mux, mut driver) = Mux::new(Config::new([64; CHANNELS], 16)).unwrap();
        let sender = mux.take_sender(Data).unwrap();
        let waker = Waker::from(Arc::new(Ignored));
        let mut cx = Context::from_waker(&waker);
        let mut issued = Inbound(b"\x21\0\x10\0\0");
        assert!(driver.poll_read(&mut cx, &mut issued).is_pending());
        let mut send = |len, refused| {
            let permit = sender.try_reserve(len).unwrap();
            let (sent, heap) = match is_owned {
                false => watched(refused, || permit.fill(|message| message.len())),
                true => {
                    let permit = permit.into_owned();
                    watched(refused, || permit.fill(|message| message.len()))
                }
            };
            assert!(driver.poll_write(&mut cx, &mut Vec::new()).is_pending());
            (sent, heap.requests, heap.live)
        };
        assert_eq!(send(200, 0).0, Ok(200));
        assert_eq!(send(200, 0), (Ok(200), 1, 1));
        assert_eq!(send(100, 0), (Ok(100), 1, 1));
        assert_eq!(send(200, 0), (Ok(200), 1, 1));
        // Without memory in the peer, and without memory for the message. The permit is given back.
        let refusal = Err(Refusal::OutOfMemory.into());
        assert_eq!(send(200, 1), (refusal.clone(), 1, 0));
        assert_eq!(send(40_000, 1), (refusal, 1, -1));
        assert_eq!(sender.held(), (1 << 20) - 700);
        assert_eq!(send(40_000, 0), (Ok(40_000), 2, 2));
        assert_eq!(sender.stats().messages_sent, 5);
    }
}

/// Memory of more than 64 KiB is not kept for a later message.
#[test]
fn the_memory_of_long_slices_is_given_back() {
    let config = Config::default().version(Version::Two);
    let (mut mux, mut driver) = Mux::new(config).unwrap();
    let sender = mux.take_sender(Data).unwrap();
    let waker = Waker::from(Arc::new(Ignored));
    let mut cx = Context::from_waker(&waker);
    let mut issued = Inbound(b"LCM\x02\x21\0\x10\0\0");
    assert!(driver.poll_read(&mut cx, &mut issued).is_pending());
    let bytes = [7; 40_000];
    let mut requests = |len| {
        let slices = [&bytes[..], &bytes[..len]].map(IoSlice::new);
        let (sent, heap) = watched(0, || sender.try_send_vectored(&slices));
        assert_eq!(sent, Ok(()));
        for _ in 0..3 {
            let _ = driver.poll_write(&mut cx, &mut Vec::new());
        }
        (heap.requests, heap.live)
    };
    requests(40_000);
    assert_eq!([requests(40_000), requests(40_000)], [(2, 1); 2]);
    assert_eq!([requests(20_000), requests(20_000)], [(2, 2), (1, 1)]);
}

struct Ignored;

impl Wake for Ignored {
    fn wake(self: Arc<Ignored>) {}
}

/// Inbound bytes, after which the transport is pending.
struct Inbound<'a>(&'a [u8]);

impl PollRead for Inbound<'_> {
    fn poll_read(&mut self, cx: &mut Context<'_>, buffer: &mut [u8]) -> Poll<io::Result<usize>> {
        match self.0.is_empty() {
            true => Poll::Pending,
            false => self.0.poll_read(cx, buffer),
        }
    }
}
