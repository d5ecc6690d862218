import type { Streams } from './lcmux.js';

/**
 * Makes the two streams of a socket of `node:net` or `node:tls`, and disables the delay of small writes. The socket
 * belongs to the streams from here on.
 *
 * The socket is set to `allowHalfOpen: true`, however it was made: else Node ends this side's direction as soon as
 * the peer has ended its own, and pending bytes are lost. Node accepts this setting until it has reported the end of
 * the peer's direction.
 *
 * A socket that closes or fails before the end of the peer's direction fails both streams, and is never reported as
 * an end. If a stream is cancelled or aborted, the socket is destroyed, and over TCP the peer gets a reset. TLS and
 * Unix sockets have no reset: there the peer's session ends as `Cut` or `Transport`.
 *
 * @throws {Error} If the socket is destroyed, if either direction has ended, or if it decodes its bytes, by
 *   `setEncoding`.
 */
export declare function fromSocket(socket: object): Streams;
