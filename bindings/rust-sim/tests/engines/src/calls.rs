//! Both programs of the calls over a stream, as `listen` and `call` run them over TCP.
use super::*;
use lcmux_sim::Stream;

/// A call, its deadline and when it begins.
#[derive(Clone, Debug)]
pub struct Planned {
    pub begin: Duration,
    pub deadline: Option<Duration>,
    pub request: String,
}

/// How a call ended.
#[derive(Clone, Debug, PartialEq, Eq)]
pub enum Outcome {
    Answer(String),
    Late,
    Failed,
}

/// Text of an error, which other errors cannot be compared by.
pub type Ended<T> = Result<T, String>;

fn config() -> Config {
    let second = Duration::from_secs(1);
    Config::default().rings(RING).idle(60 * second).keep_alive(20 * second)
}

/// Runs the server, and returns how many calls were cancelled.
pub async fn server(stream: Stream) -> Ended<usize> {
    let (mut mux, run) = connect(stream, config()).map_err(|error| error.to_string())?;
    let requests = mux.take_receiver(PayloadRequest).unwrap();
    let cancels = mux.take_receiver(StaticToken).unwrap();
    let serve = serve(requests, cancels, mux.take_sender(Data).unwrap());
    let served = tokio::select! {
        biased;
        served = serve => served,
        closed = mux.closed() => closed.map(|()| 0).map_err(Into::into),
    };
    match &served {
        Ok(_) => mux.close(),
        Err(_) => mux.abort(),
    }
    let closed = run.await.unwrap();
    let cancelled = served.map_err(|error| error.to_string())?;
    closed.map_err(|closed| closed.to_string()).map(|()| cancelled)
}

/// Makes all calls, and returns how each ended, and the session.
pub async fn client(stream: Stream, calls: Vec<Planned>) -> (Vec<Outcome>, Ended<()>) {
    let (mut mux, run) = match connect(stream, config()) {
        Ok(connected) => connected,
        Err(error) => return (vec![Outcome::Failed; calls.len()], Err(error.to_string())),
    };
    let (client, tasks) = Client::start(
        mux.take_sender(PayloadRequest).unwrap(),
        mux.take_sender(StaticToken).unwrap(),
        mux.take_receiver(Data).unwrap(),
    );
    let client = Arc::new(client);
    let calls: Vec<_> = calls
        .into_iter()
        .map(|call| tokio::spawn(make(Arc::clone(&client), call)))
        .collect();
    let mut outcomes = Vec::new();
    for call in calls {
        outcomes.push(call.await.unwrap());
    }
    drop(client);
    for task in tasks {
        if let Err(error) = task.await.unwrap() {
            return (outcomes, Err(error.to_string()));
        }
    }
    mux.close();
    let closed = run.await.unwrap().map_err(|closed| closed.to_string());
    (outcomes, closed)
}

async fn make(client: Arc<Client>, call: Planned) -> Outcome {
    sleep(call.begin).await;
    let answer = client.call(call.request.as_bytes());
    let answer = match call.deadline {
        Some(deadline) => match timeout(deadline, answer).await {
            Ok(answer) => answer,
            Err(_) => return Outcome::Late,
        },
        None => answer.await,
    };
    match answer {
        Ok(answer) => Outcome::Answer(String::from_utf8_lossy(&answer).into_owned()),
        Err(_) => Outcome::Failed,
    }
}
