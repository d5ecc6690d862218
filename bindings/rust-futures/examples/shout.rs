//! Two sessions over one stream in memory. One side sends words as a sink, and the other forwards them in capitals.
use futures_util::{stream, SinkExt, StreamExt, TryStreamExt};
use lcmux_futures::lcmux::{Channel::Data, Config, Receiver, Sender, CHANNELS};
use lcmux_futures::{ReceiverStream, SenderSink};
use std::error::Error;

type Failure = Box<dyn Error + Send + Sync>;

/// Sends each message back in capitals until the peer finishes its channel, and then finishes this side's.
async fn shout(receiver: Receiver, sender: Sender) -> Result<(), Failure> {
    let messages = ReceiverStream::new(receiver).err_into::<Failure>();
    let sink = SenderSink::new(sender).sink_err_into();
    let shouted = messages.map_ok(|message| message.to_ascii_uppercase());
    shouted.forward(sink).await
}

#[tokio::main(flavor = "current_thread")]
async fn main() -> Result<(), Failure> {
    let (here, there) = tokio::io::duplex(4096);
    let config = Config::new([64; CHANNELS], 16); // rings that hold a few words
    let (mut alice, run) = lcmux_tokio::connect(here, config)?;
    let (mut bob, other) = lcmux_tokio::connect(there, config)?;
    let (receiver, sender) = (
        bob.take_receiver(Data).unwrap(),
        bob.take_sender(Data).unwrap(),
    );
    let shouting = tokio::spawn(shout(receiver, sender));

    let words = ["one", "by", "one", "through", "a", "narrow", "ring"];
    let sink = SenderSink::new(alice.take_sender(Data).unwrap());
    let sending = tokio::spawn(stream::iter(words.map(Ok)).forward(sink));
    let mut shouted = ReceiverStream::new(alice.take_receiver(Data).unwrap());
    while let Some(word) = shouted.try_next().await? {
        println!("{}", String::from_utf8(word)?);
    }

    sending.await??;
    shouting.await??;
    alice.close();
    bob.close();
    run.await??;
    other.await??;
    Ok(())
}
