// What a bundler builds: two sessions in one script, and a message from one to the other. docs/guides/bundlers.md has
// the command of each bundler.
import { Channel, load } from 'lcmux';

/** Returns the message. The source of the module is its address or its bytes; without one, the package's own file. */
export async function hello(source) {
  const lcmux = await load(source);
  const [there, back] = [new TransformStream(), new TransformStream()];
  const alice = lcmux.open({ readable: back.readable, writable: there.writable });
  const bob = lcmux.open({ readable: there.readable, writable: back.writable });
  await alice.channel(Channel.Data).send(new TextEncoder().encode('hello'));
  const message = await bob.channel(Channel.Data).receive();
  await Promise.all([alice.close(), bob.close()]);
  return new TextDecoder().decode(message);
}
