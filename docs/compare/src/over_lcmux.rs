//! The engine over lcmux: the requests, the cancellations, the answers and the file have a channel each.
use crate::engine::{work, Answer, File, Gate, Plan, Served, Stream, WORKS};
use lcmux_tokio::lcmux::Channel::{Data, PayloadRequest, StaticToken};
use lcmux_tokio::lcmux::{Closed, Config, Receiver, SendError, Sender};
use lcmux_tokio::{connect, Reader, Writer};
use std::collections::{HashMap, HashSet};
use std::io::IoSlice;
use std::sync::atomic::{AtomicU32, Ordering::Relaxed};
use std::sync::{Arc, Mutex};
use tokio::io::{AsyncBufReadExt, AsyncWriteExt};
use tokio::sync::oneshot;
use tokio::task::JoinSet;

/// The size of the rings. At most a fifth as many requests, which have a number and a text, are in one.
const RING: u32 = 65_536;

type Waiting = Arc<Mutex<HashMap<u32, oneshot::Sender<Vec<u8>>>>>;

struct Client {
    requests: Sender,
    cancels: Sender,
    waiting: Waiting,
    next: AtomicU32,
}

/// A call, which is cancelled if it is dropped without its answer.
struct Call<'a> {
    client: &'a Client,
    number: u32,
    is_sent: bool,
}

impl Client {
    async fn call(&self, request: &[u8]) -> Answer<Vec<u8>> {
        let (answer, answered) = oneshot::channel();
        let mut call = Call {
            client: self,
            number: self.next.fetch_add(1, Relaxed),
            is_sent: false,
        };
        self.waiting.lock().unwrap().insert(call.number, answer);
        let head = call.number.to_be_bytes();
        let message = [IoSlice::new(&head), IoSlice::new(request)];
        self.requests.send_vectored(&message).await?;
        call.is_sent = true;
        Ok(answered.await?)
    }
}

impl Drop for Call<'_> {
    fn drop(&mut self) {
        let answer = self.client.waiting.lock().unwrap().remove(&self.number);
        if answer.is_some() && self.is_sent {
            tokio::spawn(self.client.cancels.send_owned(self.number.to_be_bytes()));
        }
    }
}

/// Hands out the answers. At their end, the calls that still wait fail.
async fn receive(mut answers: Receiver, waiting: Waiting) -> Result<(), Closed> {
    while let Some(answer) = answers.recv().await? {
        let call = number(&answer).and_then(|it| waiting.lock().unwrap().remove(&it));
        if let Some(call) = call {
            let _ = call.send(answer[4..].to_vec()); // fails if the call was dropped just now
        }
    }
    waiting.lock().unwrap().clear();
    Ok(())
}

fn number(message: &[u8]) -> Option<u32> {
    Some(u32::from_be_bytes(message.get(..4)?.try_into().ok()?))
}

pub async fn client(stream: impl Stream, plan: &Plan) -> Answer<Vec<Option<Vec<u8>>>> {
    let (mut mux, run) = connect(stream, Config::default().rings(RING))?;
    let client = Client {
        requests: mux.take_sender(PayloadRequest).unwrap(),
        cancels: mux.take_sender(StaticToken).unwrap(),
        waiting: Waiting::default(),
        next: AtomicU32::new(0),
    };
    let answers = mux.take_receiver(PayloadRequest).unwrap();
    let receive = tokio::spawn(receive(answers, Arc::clone(&client.waiting)));
    let mut writer = Writer::new(mux.take_sender(Data).unwrap());
    let upload = async {
        for part in plan.file() {
            writer.write_all(&part).await?;
        }
        Ok(writer.shutdown().await?)
    };
    let (answers, ()) = tokio::try_join!(plan.make(|it| client.call(it)), upload)?;
    drop(client);
    receive.await??;
    mux.close();
    run.await??;
    Ok(answers)
}

pub async fn server(stream: impl Stream, mut gate: Gate) -> Answer<Served> {
    let (mut mux, run) = connect(stream, Config::default().rings(RING))?;
    let requests = mux.take_receiver(PayloadRequest).unwrap();
    let cancels = mux.take_receiver(StaticToken).unwrap();
    let answers = mux.take_sender(PayloadRequest).unwrap();
    let mut reader = Reader::new(mux.take_receiver(Data).unwrap());
    let store = async {
        let mut file = File::default();
        loop {
            let part = reader.fill_buf().await?;
            if part.is_empty() {
                return Ok(file);
            }
            file.store(part, &mut gate).await?;
            let count = part.len();
            reader.consume(count);
        }
    };
    let (cancelled, file) = tokio::try_join!(serve(requests, cancels, answers), store)?;
    mux.close();
    run.await??;
    Ok(Served { cancelled, file })
}

/// Answers each request in a task of its own. Returns how many were cancelled.
async fn serve(mut requests: Receiver, mut cancels: Receiver, answers: Sender) -> Answer<usize> {
    let (mut works, mut running) = (JoinSet::new(), HashMap::new());
    let (mut early, mut cancelled) = (HashSet::new(), 0);
    let (mut is_open, mut may_cancel) = (true, true);
    while is_open || may_cancel || !works.is_empty() {
        tokio::select! {
            request = requests.recv(), if is_open && works.len() < WORKS => {
                let Some(request) = request? else {
                    is_open = false;
                    continue;
                };
                let number = number(&request).ok_or("a request without a number")?;
                if early.remove(&number) {
                    cancelled += 1;
                } else {
                    running.insert(number, works.spawn(answer(number, request, answers.clone())));
                }
            }
            cancel = cancels.recv(), if may_cancel => {
                let Some(cancel) = cancel? else {
                    may_cancel = false;
                    continue;
                };
                let number = number(&cancel).ok_or("a cancellation without a number")?;
                if let Some(work) = running.remove(&number) {
                    work.abort();
                    cancelled += 1;
                } else if early.len() < RING as usize / 5 {
                    early.insert(number); // its request is still in the ring, or it was answered just now
                }
            }
            Some(work) = works.join_next() => match work {
                Ok(number) => {
                    running.remove(&number?);
                }
                Err(error) if error.is_cancelled() => {}
                Err(panicked) => return Err(panicked.into()),
            },
        }
    }
    Ok(cancelled)
}

async fn answer(number: u32, request: Vec<u8>, answers: Sender) -> Result<u32, SendError> {
    let (head, text) = (number.to_be_bytes(), work(&request[4..]).await);
    let message = [IoSlice::new(&head), IoSlice::new(&text)];
    answers.send_vectored(&message).await?;
    Ok(number)
}
