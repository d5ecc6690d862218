// The policies of a session's channels: when the free bytes of a ring are issued, and when pleads are honoured.
import { CHANNELS } from './channel.js';
import { optionsOf, u32 } from './judge.js';

export const AT_ONCE = 'at once';
export const BY_CALLER = 'by caller';

const isNamed = policy => policy === AT_ONCE || policy === BY_CALLER;

function refuse(policy, what) {
  const given = typeof policy === 'string' ? `'${policy}'` : typeof policy;
  throw new TypeError(`${what} must be '${AT_ONCE}' or '${BY_CALLER}', got ${given}`);
}

/** Validates a plead policy. */
const pleadPolicyOf = policy => (isNamed(policy) ? policy : refuse(policy, 'a plead policy'));

/** Validates the issue policy of a ring of this size: a name, or a low-water mark within the ring. */
export function issuePolicyOf(policy, capacity) {
  if (isNamed(policy)) {
    return policy;
  }
  if (typeof policy !== 'object' || policy === null) {
    return refuse(policy, 'an issue policy without a mark');
  }
  const lowWater = u32(optionsOf(policy, ['lowWater'], 'the marks').lowWater, 'the low-water mark');
  if (lowWater < 1 || lowWater > capacity) {
    throw new RangeError(`the low-water mark must be in 1..=${capacity}, got ${lowWater}`);
  }
  return { lowWater };
}

// Returns one policy for each channel, from one for all or one for each.
function eachOf(given = AT_ONCE) {
  if (!Array.isArray(given)) {
    return CHANNELS.map(() => given);
  }
  if (given.length !== CHANNELS.length) {
    throw new RangeError(`there must be one policy or ${CHANNELS.length}, got ${given.length}`);
  }
  return CHANNELS.map(channel => given[channel]);
}

/** Returns the policies of each channel of a peer. */
export function policiesOf({ issue, plead }, peer) {
  return {
    issue: eachOf(issue).map((policy, channel) => issuePolicyOf(policy, peer.server(channel).capacity)),
    plead: eachOf(plead).map(pleadPolicyOf),
  };
}
