// Access to a caller's bytes by the intrinsics of %TypedArray%. They are fetched when this file is loaded, so no own
// property, no subclass and no later patch of a prototype can change the address and the length of an array.

const Bytes = Uint8Array;
const typedArray = Object.getPrototypeOf(Uint8Array.prototype);
const unbound = method => Function.prototype.call.bind(method);
const getter = (prototype, name) => unbound(Object.getOwnPropertyDescriptor(prototype, name).get);

const tagOf = getter(typedArray, Symbol.toStringTag);
const bufferOf = getter(typedArray, 'buffer');
const offsetOf = getter(typedArray, 'byteOffset');
const byteLengthOf = getter(ArrayBuffer.prototype, 'byteLength');
const keysOf = unbound(typedArray.keys);
const set = unbound(typedArray.set);

/** Returns how many bytes an array has. */
export const sizeOf = getter(typedArray, 'length');

/** Returns whether an empty array is intact: its buffer was not transferred, and did not shrink below it. */
function isWhole(array) {
  try {
    keysOf(array);
    return true;
  } catch {
    return false;
  }
}

/**
 * Checks that a value is a Uint8Array, of any realm and class, and returns it. Only the functions of this file may
 * use it. It makes no view, since a small array gets a buffer only once its `buffer` is read.
 */
export function bytesOf(value, name) {
  if (tagOf(value) !== 'Uint8Array') {
    throw new TypeError(`${name} must be a Uint8Array, got ${tagOf(value) ?? typeof value}`);
  }
  if (sizeOf(value) === 0 && !isWhole(value)) {
    throw new TypeError(`${name} must not be detached: its buffer was transferred or has shrunk`);
  }
  return value;
}

/** Returns a view of an array's bytes from one offset to another, or to its end if that comes first. */
export function part(bytes, from, to) {
  return new Bytes(bufferOf(bytes), offsetOf(bytes) + from, Math.min(to, sizeOf(bytes)) - from);
}

/** Returns a view of the whole buffer of an array. */
export const wholeOf = bytes => new Bytes(bufferOf(bytes));

/** Copies the bytes of one array to an offset of another, which has space for them. */
export const copyTo = (target, at, bytes) => set(target, bytes, at);

/** Returns a plain array with a copy of the bytes. */
export function copyOf(bytes) {
  const copy = new Bytes(sizeOf(bytes));
  set(copy, bytes, 0);
  return copy;
}

/** Returns whether a value is an ArrayBuffer, of any realm. */
export function isArrayBuffer(value) {
  try {
    return byteLengthOf(value) >= 0;
  } catch {
    return false;
  }
}
