//! Requests and answers over TCP, with deadlines and cancellation: `calls listen ADDRESS` in one terminal, and in another
//! `calls connect ADDRESS 500 hello 900 "sleep 60000"`, where 500 and 900 are the deadlines of the two calls in
//! milliseconds.
//!
//! Requests, answers and cancellations have a channel each. The number of a request is its position on its channel, and
//! its answer begins with that number, so answers come in any order. A call that is dropped, as by a timeout, is
//! cancelled: its number is sent, and the server drops the work.
use lcmux_tokio::connect;
use lcmux_tokio::lcmux::Channel::{Data, PayloadRequest, StaticToken};
use lcmux_tokio::lcmux::{Config, Receiver, SendError, Sender};
use std::collections::{HashMap, HashSet};
use std::io::IoSlice;
use std::sync::{Arc, Mutex};
use std::time::Duration;
use std::{env, error::Error};
use tokio::net::{TcpListener, TcpStream};
use tokio::sync::{mpsc, oneshot};
use tokio::task::{JoinHandle, JoinSet};
use tokio::time::{sleep, timeout};

type Answer<T> = Result<T, Box<dyn Error + Send + Sync>>;

/// The most requests that a server works at. Further ones stay in the ring: that is backpressure for its client.
const WORKS: usize = 64;

/// The size of the rings, which bounds how many requests are in one.
const RING: u32 = 65_536;

/// The calls without an answer, by their numbers; `None` once no more answers come.
type Waiting = Arc<Mutex<Option<HashMap<u64, oneshot::Sender<Vec<u8>>>>>>;

/// A client, which any number of tasks may share.
struct Client {
    requests: tokio::sync::Mutex<Requests>,
    cancels: mpsc::UnboundedSender<u64>,
    waiting: Waiting,
}

struct Requests {
    sender: Sender,
    sent: u64,
}

/// A call, which is cancelled if it is dropped without its answer.
struct Call<'a> {
    client: &'a Client,
    number: u64,
    is_sent: bool,
}

impl Client {
    /// A client, and the tasks that send its cancellations and receive its answers. They end once the client and its
    /// calls are dropped, and the server has sent its last answer.
    fn start(
        requests: Sender,
        cancels: Sender,
        answers: Receiver,
    ) -> (Client, [JoinHandle<Answer<()>>; 2]) {
        let waiting = Waiting::new(Mutex::new(Some(HashMap::new())));
        let (cancel, cancelled) = mpsc::unbounded_channel();
        let tasks = [
            tokio::spawn(send_cancels(cancels, cancelled)),
            tokio::spawn(receive(answers, Arc::clone(&waiting))),
        ];
        let client = Client {
            requests: tokio::sync::Mutex::new(Requests {
                sender: requests,
                sent: 0,
            }),
            cancels: cancel,
            waiting,
        };
        (client, tasks)
    }

    /// Sends a request and returns its answer. To give up, drop the future.
    async fn call(&self, request: &[u8]) -> Answer<Vec<u8>> {
        let (answer, answered) = oneshot::channel();
        let mut requests = self.requests.lock().await; // one after the other, so that each has its number
        let mut call = Call {
            client: self,
            number: requests.sent,
            is_sent: false,
        };
        self.expect(call.number, answer)?;
        requests.sender.send(request).await?;
        requests.sent += 1;
        call.is_sent = true;
        drop(requests);
        let answer = answered.await;
        answer.map_err(|_| "the session ended before the answer".into())
    }

    fn expect(&self, number: u64, answer: oneshot::Sender<Vec<u8>>) -> Answer<()> {
        let mut waiting = self.waiting.lock().unwrap();
        let waiting = waiting.as_mut().ok_or("the server sends no more answers")?;
        waiting.insert(number, answer);
        Ok(())
    }
}

impl Drop for Call<'_> {
    fn drop(&mut self) {
        let mut waiting = self.client.waiting.lock().unwrap();
        let unanswered = waiting.as_mut().and_then(|it| it.remove(&self.number));
        if unanswered.is_some() && self.is_sent {
            let _ = self.client.cancels.send(self.number); // fails only once the session has
        }
    }
}

/// Hands out the answers. At their end, the calls that still wait fail.
async fn receive(mut answers: Receiver, waiting: Waiting) -> Answer<()> {
    let result = loop {
        match answers.recv().await {
            Ok(Some(answer)) if answer.len() >= 8 => {
                let number = u64::from_be_bytes(answer[..8].try_into().unwrap());
                let mut waiting = waiting.lock().unwrap();
                if let Some(call) = waiting.as_mut().and_then(|it| it.remove(&number)) {
                    let _ = call.send(answer[8..].to_vec()); // fails if the call was dropped just now
                }
            }
            Ok(Some(_)) => {} // no answer of ours
            Ok(None) => break Ok(()),
            Err(closed) => break Err(closed.into()),
        }
    };
    *waiting.lock().unwrap() = None;
    result
}

async fn send_cancels(sender: Sender, mut numbers: mpsc::UnboundedReceiver<u64>) -> Answer<()> {
    while let Some(number) = numbers.recv().await {
        sender.send(&number.to_be_bytes()).await?;
    }
    Ok(())
}

/// Answers each request in a task of its own, until the client has sent the last one and its last cancellation. Returns
/// how many were cancelled.
async fn serve(mut requests: Receiver, mut cancels: Receiver, answers: Sender) -> Answer<usize> {
    let (mut works, mut running) = (JoinSet::new(), HashMap::new());
    let (mut received, mut early, mut cancelled) = (0, HashSet::new(), 0);
    let (mut is_open, mut may_cancel) = (true, true);
    while is_open || may_cancel || !works.is_empty() {
        tokio::select! {
            request = requests.recv(), if is_open && works.len() < WORKS => match request? {
                Some(request) => {
                    if early.remove(&received) {
                        cancelled += 1;
                    } else {
                        let work = answer(received, request, answers.clone());
                        running.insert(received, works.spawn(work));
                    }
                    received += 1;
                }
                None => is_open = false,
            },
            cancel = cancels.recv(), if may_cancel => match cancel? {
                Some(number) => {
                    let number = u64::from_be_bytes(number[..].try_into()?);
                    if let Some(work) = running.remove(&number) {
                        work.abort(); // unless it has sent its answer just now
                    } else if (received..received + u64::from(RING)).contains(&number) {
                        early.insert(number); // its request is still in the ring
                    }
                }
                None => may_cancel = false,
            },
            Some(work) = works.join_next() => match work {
                Ok(answered) => {
                    running.remove(&answered?);
                }
                Err(error) if error.is_cancelled() => cancelled += 1,
                Err(panicked) => return Err(panicked.into()),
            },
        }
    }
    Ok(cancelled)
}

/// Answers a request: `sleep N` after N milliseconds, and everything else in capitals. Returns its number.
async fn answer(number: u64, request: Vec<u8>, answers: Sender) -> Result<u64, SendError> {
    let text = String::from_utf8_lossy(&request);
    if let Some(Ok(time)) = text.strip_prefix("sleep ").map(str::parse) {
        sleep(Duration::from_millis(time)).await;
    }
    let (number_bytes, text) = (number.to_be_bytes(), text.to_uppercase());
    let slices = [IoSlice::new(&number_bytes), IoSlice::new(text.as_bytes())];
    answers.send_vectored(&slices).await?;
    Ok(number)
}

async fn listen(address: &str) -> Answer<()> {
    let listener = TcpListener::bind(address).await?;
    eprintln!("listening on {}", listener.local_addr()?);
    let stream = listener.accept().await?.0;
    stream.set_nodelay(true)?;
    let (mut mux, run) = connect(stream, Config::default().rings(RING))?;
    let requests = mux.take_receiver(PayloadRequest).unwrap();
    let cancels = mux.take_receiver(StaticToken).unwrap();
    // A server that works at its limit polls none of the client's channels, so `serve` may miss the end of the session.
    let serve = serve(requests, cancels, mux.take_sender(Data).unwrap());
    let served = tokio::select! {
        served = serve => served,
        closed = mux.closed() => closed.map(|()| 0).map_err(Into::into),
    };
    match served {
        Ok(cancelled) => println!("{cancelled} cancelled"),
        Err(error) => {
            mux.abort();
            return Err(error);
        }
    }
    mux.close();
    Ok(run.await??)
}

/// Makes a call for each deadline and request, all at once.
async fn call(address: &str, requests: &[&str]) -> Answer<()> {
    let stream = TcpStream::connect(address).await?;
    stream.set_nodelay(true)?;
    let (mut mux, run) = connect(stream, Config::default().rings(RING))?;
    let (client, tasks) = Client::start(
        mux.take_sender(PayloadRequest).unwrap(),
        mux.take_sender(StaticToken).unwrap(),
        mux.take_receiver(Data).unwrap(),
    );
    let client = Arc::new(client);
    let mut calls = Vec::new();
    for pair in requests.chunks_exact(2) {
        let (deadline, request) = (Duration::from_millis(pair[0].parse()?), pair[1].to_string());
        let client = Arc::clone(&client);
        let call = async move { timeout(deadline, client.call(request.as_bytes())).await };
        calls.push(tokio::spawn(call));
    }
    for call in calls {
        match call.await? {
            Ok(answer) => println!("{}", String::from_utf8_lossy(&answer?)),
            Err(elapsed) => println!("{elapsed}"), // the call was dropped, and so cancelled
        }
    }
    drop(client);
    for task in tasks {
        task.await??; // a cancellation after the close would be refused, and so might an answer
    }
    mux.close();
    Ok(run.await??)
}

#[tokio::main(flavor = "current_thread")]
async fn main() -> Answer<()> {
    let words: Vec<_> = env::args().skip(1).collect();
    match words.iter().map(String::as_str).collect::<Vec<_>>()[..] {
        ["listen", address] => listen(address).await,
        ["connect", address, ref requests @ ..] if requests.len() % 2 == 0 => {
            call(address, requests).await
        }
        _ => Err(
            "usage: calls listen ADDRESS, or calls connect ADDRESS [MILLISECONDS REQUEST]..".into(),
        ),
    }
}
