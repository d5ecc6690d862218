//! The engine over HTTP/2, by the crate h2: each call and the file have a stream each.
use crate::engine::{work, Answer, File, Gate, Plan, Served, Stream, PART, WORKS};
use bytes::Bytes;
use h2::client::SendRequest;
use h2::server::SendResponse;
use h2::{RecvStream, SendStream};
use http::{Request, Response};
use std::future::poll_fn;
use std::sync::Arc;
use tokio::sync::Semaphore;
use tokio::task::JoinSet;

/// The most streams at once: those of the calls, of which some wait for the server, and that of the file.
const STREAMS: u32 = 2 * WORKS as u32;

/// The window of each stream, and that of the connection. If it were no larger than one stream's, as by default, a file
/// that the server stores slowly would stop all calls.
const WINDOW: u32 = 65_536;
const CONNECTION: u32 = STREAMS * WINDOW;

/// Sends bytes as the windows allow.
async fn send(stream: &mut SendStream<Bytes>, mut bytes: Bytes, is_end: bool) -> Answer<()> {
    while !bytes.is_empty() {
        stream.reserve_capacity(bytes.len());
        let granted = poll_fn(|cx| stream.poll_capacity(cx)).await;
        let count = granted.ok_or("the stream was reset")??.min(bytes.len());
        stream.send_data(bytes.split_to(count), false)?;
    }
    if is_end {
        stream.send_data(bytes, true)?;
    }
    Ok(())
}

/// Receives a body whole.
async fn body(mut stream: RecvStream) -> Answer<Vec<u8>> {
    let mut body = Vec::new();
    while let Some(bytes) = stream.data().await {
        let bytes = bytes?;
        stream.flow_control().release_capacity(bytes.len())?;
        if body.len() + bytes.len() > PART {
            return Err("the body is too long".into());
        }
        body.extend_from_slice(&bytes);
    }
    Ok(body)
}

/// Makes a call. One that is dropped resets its stream, which cancels it.
async fn call(requests: SendRequest<Bytes>, request: &[u8]) -> Answer<Vec<u8>> {
    let head = Request::post("http://server/call").body(())?;
    let (response, mut stream) = requests.ready().await?.send_request(head, false)?;
    send(&mut stream, Bytes::copy_from_slice(request), true).await?;
    body(response.await?.into_body()).await
}

pub async fn client(stream: impl Stream, plan: &Plan) -> Answer<Vec<Option<Vec<u8>>>> {
    let (requests, connection) = h2::client::handshake(stream).await?;
    let run = tokio::spawn(connection);
    let upload = async {
        let head = Request::post("http://server/file").body(())?;
        let mut requests = requests.clone().ready().await?;
        let (response, mut stream) = requests.send_request(head, false)?;
        for part in plan.file() {
            send(&mut stream, part.into(), false).await?;
        }
        send(&mut stream, Bytes::new(), true).await?;
        response.await?;
        Ok(())
    };
    let make = plan.make(|it| call(requests.clone(), it));
    let (answers, ()) = tokio::try_join!(make, upload)?;
    drop(requests);
    run.await??;
    Ok(answers)
}

pub async fn server(stream: impl Stream, gate: Gate) -> Answer<Served> {
    let mut connection = h2::server::Builder::new()
        .max_concurrent_streams(STREAMS)
        .initial_window_size(WINDOW)
        .initial_connection_window_size(CONNECTION)
        .handshake::<_, Bytes>(stream)
        .await?;
    let slots = Arc::new(Semaphore::new(WORKS));
    let (mut works, mut cancelled, mut file) = (JoinSet::new(), 0, None);
    loop {
        tokio::select! {
            request = connection.accept() => {
                let Some((request, respond)) = request.transpose()? else {
                    break;
                };
                if request.uri().path() == "/file" {
                    file = Some(tokio::spawn(store(request.into_body(), respond, gate.clone())));
                } else {
                    works.spawn(answer(request.into_body(), respond, Arc::clone(&slots)));
                }
            }
            Some(work) = works.join_next() => cancelled += usize::from(work??),
        }
    }
    while let Some(work) = works.join_next().await {
        cancelled += usize::from(work??);
    }
    let file = file.ok_or("there was no file")?.await??;
    Ok(Served { cancelled, file })
}

/// Stores the file. A window is given back once its bytes are stored.
async fn store(
    mut stream: RecvStream,
    mut respond: SendResponse<Bytes>,
    mut gate: Gate,
) -> Answer<File> {
    let mut file = File::default();
    while let Some(bytes) = stream.data().await {
        let bytes = bytes?;
        file.store(&bytes, &mut gate).await?;
        stream.flow_control().release_capacity(bytes.len())?;
    }
    respond.send_response(Response::new(()), true)?;
    Ok(file)
}

/// Answers a request. Returns whether the client reset the stream, or closed the connection, before the answer was sent.
async fn answer(
    request: RecvStream,
    mut respond: SendResponse<Bytes>,
    slots: Arc<Semaphore>,
) -> Answer<bool> {
    let answer = async {
        let _slot = slots.acquire().await?;
        Answer::Ok(work(&body(request).await?).await)
    };
    let answer = tokio::select! {
        answer = answer => answer,
        reset = poll_fn(|cx| respond.poll_reset(cx)) => return Ok(reset.is_ok()),
    };
    let answer = answer?;
    let sent = async {
        let mut stream = respond.send_response(Response::new(()), false)?;
        send(&mut stream, answer.into(), true).await
    };
    Ok(sent.await.is_err())
}
