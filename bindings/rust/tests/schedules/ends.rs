//! The tasks of a channel's handles.
use crate::choices::Choices;
use crate::executor::Yield;
use crate::model::{body, Model};
use lcmux::{CallError, Closed, IssuePolicy, OwnedPermit, Permit, PollSender, Receiver};
use lcmux::{SendError, Sender, TryRecvError, TrySendError};
use std::cell::{Cell, RefCell};
use std::future::{poll_fn, Future};
use std::pin::{pin, Pin};
use std::rc::Rc;
use std::task::{Context, Poll};

/// The longest message of a schedule, and the size of each ring.
pub const LONGEST: usize = 12;
pub const RING: u32 = 24;

/// A handle: its side, its channel, and the source of its choices.
#[derive(Clone)]
pub struct End {
    pub side: usize,
    pub channel: usize,
    pub policy: IssuePolicy,
    /// Whether the session is to end in order.
    pub is_clean: bool,
    pub choices: Rc<RefCell<Choices>>,
    pub model: Rc<RefCell<Model>>,
}

/// A call that may be cancelled while it waits.
struct Fickle<'a, F> {
    call: Pin<&'a mut F>,
    end: &'a End,
}

impl<F: Future> Future for Fickle<'_, F> {
    type Output = Option<F::Output>;

    fn poll(mut self: Pin<&mut Self>, cx: &mut Context<'_>) -> Poll<Self::Output> {
        if let Poll::Ready(output) = self.call.as_mut().poll(cx) {
            return Poll::Ready(Some(output));
        }
        if self.end.one_in(8) {
            self.end.model.borrow_mut().dropped += 1;
            return Poll::Ready(None);
        }
        Poll::Pending
    }
}

impl End {
    fn below(&self, n: u32) -> u32 {
        self.choices.borrow_mut().below(n)
    }

    fn one_in(&self, n: u32) -> bool {
        self.choices.borrow_mut().one_in(n)
    }

    async fn rest(&self) {
        while self.one_in(3) {
            Yield(false).await;
        }
    }

    // Makes a call, which may be cancelled.
    async fn fickle<F: Future>(&self, call: F) -> Option<F::Output> {
        let mut call = pin!(call);
        let fickle = Fickle {
            call: call.as_mut(),
            end: self,
        };
        fickle.await
    }

    // The next message to be sent, or a later one.
    fn message(&self, behind: usize) -> Vec<u8> {
        let number = behind + self.model.borrow().next_number(self.side, self.channel);
        let len = 1 + self.below(LONGEST as u32) as usize;
        body(self.side, self.channel, number, len)
    }

    fn accepted(&self, message: Vec<u8>) {
        let mut model = self.model.borrow_mut();
        model.accepted(self.side, self.channel, message);
    }

    fn closed(&self, closed: Closed) {
        self.model.borrow_mut().reasons[self.side].push(closed);
    }
}

fn allowed(call: Result<(), CallError>) -> Result<(), Closed> {
    match call {
        Err(CallError::Closed(closed)) => Err(closed),
        Ok(()) | Err(_) => Ok(()),
    }
}

pub async fn send_all(end: End, sender: Rc<Sender>, count: u32) {
    match send_some(&end, &sender, count).await {
        Ok(()) => {}
        Err(SendError::Closed(closed)) => end.closed(closed),
        // The peer's receiver was dropped when it observed the end.
        Err(SendError::Unwanted { .. }) if !end.is_clean => {}
        Err(error) => panic!("{error:?}"),
    }
    drop(sender);
    end.model.borrow_mut().done(end.side);
}

async fn send_some(end: &End, sender: &Sender, count: u32) -> Result<(), SendError> {
    for _ in 0..count {
        end.rest().await;
        let message = end.message(0);
        match end.below(12) {
            0..=3 => send_one(end, sender, message).await?,
            4 => match sender.try_send(&message) {
                Ok(()) => {
                    end.accepted(message);
                }
                Err(TrySendError::Full(_)) => {}
                Err(TrySendError::Failed(error)) => return Err(error),
                Err(error) => panic!("{error}"),
            },
            5 | 6 => send_by_permit(end, sender, message).await?,
            7 => send_two(end, sender, [message, end.message(1)]).await?,
            8..=10 => send_polled(end, PollSender::new(sender.clone()), message).await?,
            _ if end.policy == IssuePolicy::ByCaller => {}
            _ if end.one_in(2) => allowed(sender.honour().map(drop))?,
            _ => allowed(sender.absolve(1 + end.below(6)))?,
        }
    }
    if end.one_in(2) {
        allowed(sender.finish())?;
    }
    Ok(())
}

async fn send_one(end: &End, sender: &Sender, message: Vec<u8>) -> Result<(), SendError> {
    match end.fickle(sender.send(&message)).await {
        None => Ok(()),
        Some(Err(error)) => Err(error),
        Some(Ok(())) => {
            end.accepted(message);
            Ok(())
        }
    }
}

// Polls a call by one future after another. Between them it goes on, is made for another message, or is cancelled.
async fn send_polled(
    end: &End,
    mut sender: PollSender,
    mut message: Vec<u8>,
) -> Result<(), SendError> {
    loop {
        let call = poll_fn(|cx| sender.poll_send(cx, &message));
        if let Some(sent) = end.fickle(call).await {
            sent?;
            assert!(!sender.cancel(), "the call waits after its end");
            end.accepted(message);
            return Ok(());
        }
        end.rest().await;
        match end.below(8) {
            0..=3 => {}
            4 | 5 => message = end.message(0),
            6 => assert!(sender.cancel(), "the call does not wait"),
            _ => return Ok(()),
        }
    }
}

// Makes two calls at the same time, either of which may be cancelled: the second follows the first.
async fn send_two(end: &End, sender: &Sender, messages: [Vec<u8>; 2]) -> Result<(), SendError> {
    let [one, other] = messages;
    let is_first_over = Cell::new(false);
    let first = async {
        let sent = send_one(end, sender, one).await;
        is_first_over.set(true);
        sent
    };
    let second = async {
        let sent = end.fickle(sender.send(&other)).await.transpose()?;
        if sent.is_some() {
            assert!(is_first_over.get(), "a later call goes first");
            end.accepted(other.clone());
        }
        Ok(())
    };
    both(first, second).await
}

// Runs two calls to their ends, and returns the error of the first, or of the second.
async fn both<T, E>(
    first: impl Future<Output = Result<T, E>>,
    second: impl Future<Output = Result<T, E>>,
) -> Result<T, E> {
    let (mut first, mut second) = (pin!(first), pin!(second));
    let (mut one, mut other) = (None, None);
    poll_fn(|cx| {
        step(first.as_mut(), &mut one, cx);
        step(second.as_mut(), &mut other, cx);
        match one.is_some() && other.is_some() {
            true => Poll::Ready(()),
            false => Poll::Pending,
        }
    })
    .await;
    one.unwrap().and(other.unwrap())
}

fn step<F: Future>(call: Pin<&mut F>, result: &mut Option<F::Output>, cx: &mut Context<'_>) {
    if result.is_none() {
        if let Poll::Ready(output) = call.poll(cx) {
            *result = Some(output);
        }
    }
}

// Reserves a permit, may send or try to send meanwhile, and uses the permit or drops it.
async fn send_by_permit(end: &End, sender: &Sender, message: Vec<u8>) -> Result<(), SendError> {
    let len = (message.len() + end.below(3) as usize).min(LONGEST);
    let permit: Permit = match end.fickle(sender.reserve(len)).await {
        None => return Ok(()),
        Some(Err(error)) => return Err(error),
        Some(Ok(permit)) => permit,
    };
    if end.one_in(2) {
        return send_by_owned(end, permit.into_owned(), message).await;
    }
    end.rest().await;
    if end.one_in(3) {
        drop(permit);
        return Ok(());
    }
    permit.send(&message)?;
    end.accepted(message);
    Ok(())
}

async fn send_by_owned(end: &End, permit: OwnedPermit, message: Vec<u8>) -> Result<(), SendError> {
    end.rest().await;
    if end.one_in(3) {
        drop(permit);
        return Ok(());
    }
    permit.send(&message)?;
    end.accepted(message);
    Ok(())
}

pub async fn recv_all(end: End, mut receiver: Receiver) {
    if let Err(closed) = recv_some(&end, &mut receiver).await {
        end.closed(closed);
    }
    drop(receiver);
    end.model.borrow_mut().done(end.side);
}

async fn recv_some(end: &End, receiver: &mut Receiver) -> Result<(), Closed> {
    loop {
        end.rest().await;
        if end.policy == IssuePolicy::ByCaller {
            let room = receiver.room();
            if room > 0 {
                allowed(receiver.issue(room))?;
            }
        } else if end.one_in(16) {
            // Policies issue no more than the target of a plead, until they are set again.
            allowed(receiver.plead(end.below(RING)))?;
            end.rest().await;
            receiver.set_issue_policy(end.policy).unwrap();
        }
        let is_ended = match end.below(6) {
            0 | 1 => recv_one(end, receiver).await?,
            2 => lend_one(end, receiver).await?,
            3 => lend_polled(end, receiver).await?,
            4 => try_to_lend(end, receiver)?,
            _ => try_one(end, receiver)?,
        };
        if is_ended {
            return Ok(());
        }
    }
}

fn took(end: &End, message: &[u8]) {
    let mut model = end.model.borrow_mut();
    model.taken(1 - end.side, end.channel, message);
}

async fn recv_one(end: &End, receiver: &mut Receiver) -> Result<bool, Closed> {
    match end.fickle(receiver.recv()).await.transpose()? {
        None => Ok(false),
        Some(None) => Ok(true),
        Some(Some(message)) => {
            took(end, &message);
            Ok(false)
        }
    }
}

async fn lend_one(end: &End, receiver: &mut Receiver) -> Result<bool, Closed> {
    match end.fickle(receiver.recv_ref()).await.transpose()? {
        None => Ok(false),
        Some(None) => Ok(true),
        Some(Some(message)) => {
            took(end, &message);
            end.rest().await;
            Ok(false)
        }
    }
}

async fn lend_polled(end: &End, receiver: &mut Receiver) -> Result<bool, Closed> {
    let lend = poll_fn(|cx| {
        let polled = receiver.poll_recv_ref(cx);
        polled.map_ok(|message| message.map(|message| took(end, &message)))
    });
    let lent = end.fickle(lend).await.transpose()?;
    Ok(lent == Some(None))
}

fn try_to_lend(end: &End, receiver: &mut Receiver) -> Result<bool, Closed> {
    match receiver.try_recv_ref() {
        Ok(Some(message)) => {
            took(end, &message);
            Ok(false)
        }
        Ok(None) => Ok(true),
        Err(TryRecvError::Empty) => Ok(false),
        Err(TryRecvError::Closed(closed)) => Err(closed),
        Err(error) => panic!("{error}"),
    }
}

fn try_one(end: &End, receiver: &mut Receiver) -> Result<bool, Closed> {
    match receiver.try_recv() {
        Ok(Some(message)) => {
            took(end, &message);
            Ok(false)
        }
        Ok(None) => Ok(true),
        Err(TryRecvError::Empty) => Ok(false),
        Err(TryRecvError::Closed(closed)) => Err(closed),
        Err(error) => panic!("{error}"),
    }
}
