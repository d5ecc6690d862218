// Parses outbound bytes frame by frame, as docs/reference/wire-format.md has it.

// codes: begin kinds
/** How many bytes the number behind the tag has, by the kind and the version. */
const NUMBERS = { 1: [2, 4], 2: [4, 4], 3: [4, 4], 4: [4, 4], 5: [8, 8], 6: [8, 8], 7: [0, 0] };
const NAMES = [, 'send', 'issue', 'absolve', 'plead', 'limit-sending', 'limit-receiving', 'finish'];
// codes: end

/** Texts such as `send 1 5`: the kind, the channel, and the number, which is a message's length. */
export function framesOf(writes, version = 1) {
  const bytes = Buffer.concat(writes);
  const frames = [];
  for (let at = 0; at < bytes.length; ) {
    const [kind, channel] = [bytes[at] >> 4, bytes[at] & 15];
    const size = NUMBERS[kind][version - 1];
    const number = size === 0 ? '' : ` ${BigInt(`0x${bytes.toString('hex', at + 1, at + 1 + size)}`)}`;
    at += 1 + size + (kind === 1 ? Number(number) : 0);
    frames.push(`${NAMES[kind]} ${channel}${number}`);
  }
  return frames;
}
