// Invalid uses. The compiler has to find an error below each line that expects one.
import { Channel, ENDED, LcmuxError, Peer, Session, SessionClosed, load, open } from 'lcmux';
import { fromSocket } from 'lcmux/node';

const lcmux = await load();
const peer = lcmux.peer();
const body = new Uint8Array(1);
const streams = fromSocket({});
const session = await open(streams);
const data = session.channel(Channel.Data);

// @ts-expect-error: a peer is made by a library
new Peer();
// @ts-expect-error: a session is opened
new Session();
// @ts-expect-error: no such version
lcmux.peer({ version: 3 });
// @ts-expect-error: no such bound
lcmux.peer({ capacity: 8 });
// @ts-expect-error: a text is no number of slots
lcmux.peer({ slots: '4' });
// @ts-expect-error: no such channel
peer.send(7, body);
// @ts-expect-error: a name is no channel
peer.send('Data', body);
// @ts-expect-error: a text is no body
peer.send(Channel.Data, 'hello');
// @ts-expect-error: nor is a buffer
peer.send(Channel.Data, body.buffer);
// @ts-expect-error: an amount is a number
peer.issue(Channel.Data, 5n);
// @ts-expect-error: a bound is no text
peer.limitSending(Channel.Data, '5');
// @ts-expect-error: a take may have no message
peer.take(Channel.Data).length;
// @ts-expect-error: nor may it have one where it has not ended
peer.take(Channel.Data) !== ENDED && peer.take(Channel.Data).length;
// @ts-expect-error: the number of guarantees comes with that kind alone
peer.needs(Channel.Data, 5).missing;
// @ts-expect-error: what was received may be above 2^53
peer.client(Channel.Data).received + 1;
// @ts-expect-error: a limit may be none
const left: bigint = peer.server(Channel.Data).sendLeft;
// @ts-expect-error: a balance is read
peer.client(Channel.Data).held = 5;
// @ts-expect-error: a channel is a constant
Channel.Data = 2;
// @ts-expect-error: no such code
new LcmuxError(31);
// @ts-expect-error: a promise is no library
load().peer();
// @ts-expect-error: a path is no source
load('lcmux.wasm');
// @ts-expect-error: both streams
open({ readable: streams.readable });
// @ts-expect-error: streams of bytes
open({ readable: new ReadableStream<string>(), writable: streams.writable });
// @ts-expect-error: a message is bytes
data.send('hello');
// @ts-expect-error: a signal stands in options
data.send(body, new AbortController().signal);
// @ts-expect-error: a message may be none
(await data.receive()).length;
// @ts-expect-error: an iteration waits
for (const message of data) console.log(message);
// @ts-expect-error: no such channel of a session
session.channel(7);
// @ts-expect-error: a finish does not wait
data.finish({ signal: new AbortController().signal });
// @ts-expect-error: no such policy
open(streams, { plead: 'never' });
// @ts-expect-error: a mark has a number
open(streams, { issue: { lowWater: '5' } });
// @ts-expect-error: a peer has no policies
lcmux.peer({ issue: 'at once' });
// @ts-expect-error: a plead may be none
const pleaded: number = data.pleaded;
// @ts-expect-error: no such end
new SessionClosed('closed');
// @ts-expect-error: a signal stands in options
data.values(new AbortController().signal);
// @ts-expect-error: a stream is read
data.readable = streams.readable;
// @ts-expect-error: a stream of bytes
data.writable.getWriter().write('hello');
// @ts-expect-error: a controller is no signal
session.close({ signal: new AbortController() });
// @ts-expect-error: a peer has no signal
lcmux.peer({ signal: new AbortController().signal });
// @ts-expect-error: a signal stands in options
load(undefined, new AbortController().signal);
