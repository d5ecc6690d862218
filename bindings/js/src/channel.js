/** The logical channels. Each runs in both directions, and these are independent. */
export const Channel = Object.freeze({
  Reconciliation: 0,
  Data: 1,
  Overlap: 2,
  Capability: 3,
  AreaOfInterest: 4,
  PayloadRequest: 5,
  StaticToken: 6,
});

/** All channels, in the order of their numbers. */
export const CHANNELS = Object.freeze(Object.values(Channel));
