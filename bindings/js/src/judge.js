// Validates the arguments of a caller before they reach the module: no number is rounded, truncated or wrapped.

/** The largest unsigned number of 32 bits. */
const MAX_U32 = 2 ** 32 - 1;

/** The longest length that a number represents exactly. */
const MAX_LENGTH = Number.MAX_SAFE_INTEGER;

/** The largest unsigned number of 64 bits. */
const MAX_U64 = 2n ** 64n - 1n;

function integer(value, most, name) {
  if (typeof value !== 'number') {
    throw new TypeError(`${name} must be a number, got ${typeof value}`);
  }
  if (!Number.isSafeInteger(value) || value < 0 || value > most) {
    throw new RangeError(`${name} must be an integer in 0..=${most}, got ${value}`);
  }
  return value;
}

export const channelOf = value => integer(value, 6, 'the channel');
export const u32 = (value, name) => integer(value, MAX_U32, name);
export const lengthOf = value => BigInt(integer(value, MAX_LENGTH, 'the length'));

/** Returns a bound of 64 bits as a BigInt: the caller passes an exact number or a BigInt. */
export function boundOf(value) {
  if (typeof value !== 'bigint') {
    return BigInt(integer(value, MAX_LENGTH, 'the bound'));
  }
  if (value < 0n || value > MAX_U64) {
    throw new RangeError(`the bound must be in 0..=${MAX_U64}, got ${value}`);
  }
  return value;
}

/**
 * Returns the values of an options object, by the names that it may have. A value that is undefined counts as absent.
 * Any other name is an error, an inherited one as well: so a signal in place of options is not taken for no options.
 */
export function optionsOf(given, names, what) {
  if (given === undefined || given === null) {
    return {};
  }
  if (typeof given !== 'object') {
    throw new TypeError(`${what} must be an object, got ${typeof given}`);
  }
  for (const key in given) {
    if (!names.includes(key)) {
      throw new TypeError(`${what} have no key '${key}', only ${names.join(', ')}`);
    }
  }
  return Object.fromEntries(names.map(name => [name, given[name]]).filter(([, value]) => value !== undefined));
}

/** Returns the signal of an options object, undefined if there is none. Throws its reason if it has aborted. */
export function signalOf(options) {
  const signal = optionsOf(options, ['signal'], 'the options').signal ?? undefined;
  signal?.throwIfAborted();
  return signal;
}
