//! The library `libackbo.a` against the twin: every reply and every lent buffer, on valid and on damaged inputs. The
//! counts of replies and errors are printed, and none of the errors, marks and answers may be missing.

mod check;
mod comparing;
mod converting;
mod counts;
mod decoding;
mod encoding;
mod enumerations;
mod fingerprints;
mod jobs;
mod lent;
mod marking;
mod oftener;
mod pages;
mod picking;
mod slices;
mod turns;

/// The seed of all inputs.
const SEED: u64 = 1_023;
