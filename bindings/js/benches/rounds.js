// Measures a round of two peers on one thread through this package: a message of 16, 1,024 or 61,440 bytes, and its
// guarantees back, like `pieces` of the crate for Rust. `node benches/rounds.js` prints a line `name value unit` for
// each, in processor time.
import { Channel, load } from 'lcmux';

const { Data } = Channel;
const REPETITIONS = 5;
const wire = new Uint8Array(70_000);

function carry(from, to) {
  const count = from.writeInto(wire);
  to.deliver(wire.subarray(0, count));
}

/** Sends a message from the sender to the receiver, over a wire in memory. */
class Exchange {
  #client;
  #server;
  #body;
  #buffer;

  constructor(lcmux, length) {
    this.#client = lcmux.peer({ slots: 4 });
    this.#server = lcmux.peer({ slots: 4 });
    this.#body = new Uint8Array(length).fill(0x5a);
    this.#buffer = new Uint8Array(length);
    this.#promise();
  }

  #promise() {
    this.#server.issue(Data, this.#body.length);
    carry(this.#server, this.#client);
  }

  #round() {
    this.#client.send(Data, this.#body);
    carry(this.#client, this.#server);
    if (this.#server.takeInto(Data, this.#buffer) !== this.#body.length) {
      throw new Error('another message');
    }
    this.#promise();
  }

  /** Rounds a second. */
  rate(count) {
    const start = process.cpuUsage();
    for (let round = 0; round < count; round += 1) {
      this.#round();
    }
    const { user, system } = process.cpuUsage(start);
    return (count / (user + system)) * 1e6;
  }
}

const lcmux = await load();
for (const [name, length, count] of [['16', 16, 100_000], ['1k', 1024, 100_000], ['60k', 61_440, 5000]]) {
  const exchange = new Exchange(lcmux, length);
  exchange.rate(count);
  const rates = Array.from({ length: REPETITIONS }, () => exchange.rate(count)).sort((a, b) => a - b);
  console.log(`pieces.${name}.messages ${rates[REPETITIONS >> 1].toFixed(0)} messages/s`);
}
