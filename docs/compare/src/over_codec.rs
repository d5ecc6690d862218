//! The engine over frames of its own, by the codec of tokio-util: a length, a kind, a number, and bytes.
//!
//! There is one queue for all, and TCP's flow control alone: a server that stores the file slowly stops the calls, too.
use crate::engine::{work, Answer, File, Gate, Plan, Served, Stream, WORKS};
use bytes::{Buf, BufMut, Bytes, BytesMut};
use futures_util::{SinkExt, StreamExt};
use std::collections::HashMap;
use std::sync::atomic::{AtomicU32, Ordering::Relaxed};
use std::sync::{Arc, Mutex};
use tokio::io::{split, ReadHalf, WriteHalf};
use tokio::sync::{mpsc, oneshot, Semaphore};
use tokio::task::{AbortHandle, JoinSet};
use tokio_util::codec::{FramedRead, FramedWrite, LengthDelimitedCodec};

/// The kinds of frames.
const REQUEST: u8 = 0;
const ANSWER: u8 = 1;
const CANCEL: u8 = 2;
const PART: u8 = 3;

/// The most calls, of which some wait for the server. One more ends the connection.
const MOST_CALLS: usize = 2 * WORKS;

/// The frames that wait for the writer.
const QUEUE: usize = 16;

type Waiting = Arc<Mutex<HashMap<u32, oneshot::Sender<Bytes>>>>;
type Frames = mpsc::Sender<Bytes>;

fn frame(kind: u8, number: u32, bytes: &[u8]) -> Bytes {
    let mut frame = BytesMut::with_capacity(5 + bytes.len());
    frame.put_u8(kind);
    frame.put_u32(number);
    frame.put_slice(bytes);
    frame.freeze()
}

/// Takes a frame apart: its kind, its number and its bytes.
fn parts(frame: BytesMut) -> Answer<(u8, u32, Bytes)> {
    let mut frame = frame.freeze();
    if frame.len() < 5 {
        return Err("the frame is too short".into());
    }
    Ok((frame.get_u8(), frame.get_u32(), frame))
}

/// Splits a stream into frames that are read, and a queue of frames that a task writes to the end.
fn framed<S: Stream>(stream: S) -> (FramedRead<ReadHalf<S>, LengthDelimitedCodec>, Frames) {
    let (reader, writer) = split(stream);
    let (frames, queue) = mpsc::channel(QUEUE);
    tokio::spawn(write(
        FramedWrite::new(writer, LengthDelimitedCodec::new()),
        queue,
    ));
    (FramedRead::new(reader, LengthDelimitedCodec::new()), frames)
}

async fn write<S: Stream>(
    mut writer: FramedWrite<WriteHalf<S>, LengthDelimitedCodec>,
    mut queue: mpsc::Receiver<Bytes>,
) -> Answer<()> {
    while let Some(frame) = queue.recv().await {
        writer.feed(frame).await?;
        while let Ok(frame) = queue.try_recv() {
            writer.feed(frame).await?;
        }
        writer.flush().await?;
    }
    Ok(writer.close().await?)
}

struct Client {
    frames: Frames,
    waiting: Waiting,
    next: AtomicU32,
}

/// A call, which is cancelled if it is dropped without its answer.
struct Call<'a> {
    client: &'a Client,
    number: u32,
    is_sent: bool,
}

impl Client {
    async fn call(&self, request: &[u8]) -> Answer<Vec<u8>> {
        let (answer, answered) = oneshot::channel();
        let mut call = Call {
            client: self,
            number: self.next.fetch_add(1, Relaxed),
            is_sent: false,
        };
        self.waiting.lock().unwrap().insert(call.number, answer);
        self.frames
            .send(frame(REQUEST, call.number, request))
            .await?;
        call.is_sent = true;
        Ok(answered.await?.to_vec())
    }
}

impl Drop for Call<'_> {
    fn drop(&mut self) {
        let answer = self.client.waiting.lock().unwrap().remove(&self.number);
        if answer.is_some() && self.is_sent {
            let (frames, number) = (self.client.frames.clone(), self.number);
            tokio::spawn(async move { frames.send(frame(CANCEL, number, b"")).await });
        }
    }
}

pub async fn client(stream: impl Stream, plan: &Plan) -> Answer<Vec<Option<Vec<u8>>>> {
    let (mut reader, frames) = framed(stream);
    let client = Client {
        frames,
        waiting: Waiting::default(),
        next: AtomicU32::new(0),
    };
    let waiting = Arc::clone(&client.waiting);
    let receive = tokio::spawn(async move {
        while let Some(frame) = reader.next().await {
            let (_, number, answer) = parts(frame?)?;
            let call = waiting.lock().unwrap().remove(&number);
            if let Some(call) = call {
                let _ = call.send(answer); // fails if the call was dropped just now
            }
        }
        waiting.lock().unwrap().clear();
        Answer::Ok(())
    });
    let upload = async {
        for part in plan.file() {
            client.frames.send(frame(PART, 0, &part)).await?;
        }
        Ok(client.frames.send(frame(PART, 0, b"")).await?) // the end of the file
    };
    let (answers, ()) = tokio::try_join!(plan.make(|it| client.call(it)), upload)?;
    drop(client);
    receive.await??;
    Ok(answers)
}

pub async fn server(stream: impl Stream, mut gate: Gate) -> Answer<Served> {
    let (mut reader, frames) = framed(stream);
    let (mut works, mut running) = (JoinSet::new(), HashMap::new());
    let slots = Arc::new(Semaphore::new(WORKS));
    let (mut file, mut is_whole, mut cancelled) = (File::default(), false, 0);
    loop {
        let frame = tokio::select! {
            Some(frame) = reader.next() => frame,
            Some(_) = works.join_next() => continue, // which drops it
            else => break,
        };
        let (kind, number, bytes) = parts(frame?)?;
        match kind {
            REQUEST => {
                running.retain(|_, work: &mut AbortHandle| !work.is_finished());
                if running.len() == MOST_CALLS {
                    return Err("there are too many calls".into());
                }
                let (frames, slots) = (frames.clone(), Arc::clone(&slots));
                running.insert(number, works.spawn(answer(number, bytes, frames, slots)));
            }
            CANCEL => {
                let work = running.remove(&number).filter(|it| !it.is_finished());
                if let Some(work) = work {
                    work.abort();
                    cancelled += 1;
                }
            }
            PART if bytes.is_empty() => is_whole = true,
            PART => file.store(&bytes, &mut gate).await?,
            _ => return Err("the frame has no known kind".into()),
        }
    }
    match is_whole {
        true => Ok(Served { cancelled, file }),
        false => Err("the connection was cut".into()),
    }
}

async fn answer(number: u32, request: Bytes, frames: Frames, slots: Arc<Semaphore>) -> Answer<()> {
    let _slot = slots.acquire().await?;
    let answer = work(&request).await;
    Ok(frames.send(frame(ANSWER, number, &answer)).await?)
}
