//! 01's sample and its traps: theories with rules, each with its mark and margin.

use crate::common::{Case, Example, Theory};
use twin::Pick;
use twin::Relation::{self, Equivalent, Greater, Less, Unrelated};

/// The sample of 01.
pub fn sample() -> Theory {
    let symbols = [("o", 0, 1, 0), ("z", 0, 1, 1), ("b", 0, 3, 2), ("+", 2, 1, 3), ("neg", 1, 1, 4), ("sub", 2, 1, 5)];
    Theory::new(1, &symbols)
}

/// A theory for the traps: constants o < z < c < d, then g < + < * < h.
fn trap_theory() -> Theory {
    let low = [("o", 0, 1, 0), ("z", 0, 1, 1), ("c", 0, 2, 2), ("d", 0, 1, 3), ("g", 1, 2, 4)];
    let high = [("+", 2, 1, 5), ("*", 2, 1, 6), ("h", 1, 1, 7)];
    Theory::new(1, &[low.as_slice(), &high].concat())
}

/// The rules of 01's sample; where a sum is not grouped, each grouping is a rule.
pub const CASES: [Case; 20] = [
    ("u+z -> u", 1, 2),
    ("z -> o", 2, 0),
    ("sub(u,z) -> sub(u,o)", 3, 0),
    ("neg(z)+u -> neg(o)+u", 4, 0),
    ("(z+z)+z -> z+b", 5, 0),
    ("z+(z+z) -> z+b", 5, 0),
    ("z+u -> o+u", 6, 0),
    ("u+z -> u+u", 7, 0),
    ("o -> neg(o)", 8, -1),
    ("neg(o)+(z+o) -> (o+neg(o))+z", 9, 0),
    ("neg(u)+o -> u+neg(o)", 10, 0),
    ("u -> o", 10, 0),
    ("(z+o)+o -> (z+z)+o", 10, 0),
    ("(z+o)+o -> z+(z+o)", 10, 0),
    ("z+(o+o) -> (z+z)+o", 10, 0),
    ("z+(o+o) -> z+(z+o)", 10, 0),
    ("b -> u", 7, 2),
    ("o -> u", 7, 0),
    ("u -> u", 9, 0),
    ("u -> v", 7, 0),
];

/// Terms of the sample, how the left one is related to the right one, and the margin.
pub const COMPARISONS: [(&str, &str, Relation, i64); 9] = [
    ("u+z", "u", Greater, 2),
    ("u", "u+z", Less, -2),
    ("o", "neg(o)", Less, -1),
    ("o+u", "z+u", Less, 0),
    ("neg(o)+(z+o)", "(o+neg(o))+z", Equivalent, 0),
    ("neg(u)+o", "u+neg(o)", Unrelated, 0),
    ("u", "o", Unrelated, 0),
    ("o", "u", Unrelated, 0),
    ("b", "u", Unrelated, 2),
];

/// Terms of the sample, and what is picked of them.
pub const PICKS: [(&str, &str, Pick); 10] = [
    ("u+z", "u", Pick::Left(3)),
    ("u", "u+z", Pick::Right(3)),
    ("z", "o", Pick::Left(1)),
    ("o", "neg(o)", Pick::Right(2)),
    ("sub(u,o)", "sub(u,z)", Pick::Right(3)),
    ("(z+z)+z", "z+b", Pick::Left(5)),
    ("z+o", "o+z", Pick::Equivalent),
    ("neg(o)+(z+o)", "(o+neg(o))+z", Pick::Equivalent),
    ("neg(u)+o", "u+neg(o)", Pick::Unrelated),
    ("b", "u", Pick::Unrelated),
];

/// The least such term whose fingerprint wraps, and a sum of four of them, which wraps too.
const WRAPPED: &str = "sub(sub(sub(sub(sub(o,o),o),o),o),o)";
const WRAPPED_SUM: &str = "sub(sub(sub(sub(sub(o,o),o),o),o),o)+sub(sub(sub(sub(sub(o,o),o),o),o),o)
    +sub(sub(sub(sub(sub(o,o),o),o),o),o)+sub(sub(sub(sub(sub(o,o),o),o),o),o)";

/// Terms of the sample, and their fingerprints.
pub const FINGERPRINTS: [(&str, u32); 18] = [
    ("o+z", 262_399),
    ("sub(z,o)", 5_829),
    ("o", 1),
    ("b", 3),
    ("u", 257),
    ("s", 262),
    ("z+o", 262_399),
    ("sub(o,z)", 5_799),
    ("neg(o)", 156),
    ("neg(neg(u))", 567),
    // 65,599 is taken once for a top-flattening, and once more for each one inside another symbol.
    ("(o+z)+o", 262_400),
    ("(o+z)+(o+u)", 262_657),
    ("neg(o+z)+o", 524_951),
    // Terms that are not AC-equivalent may share one.
    ("neg(u)+o", 262_809),
    ("u+neg(o)", 262_809),
    // 5,532,106,086 and 4,948,817,556 are cut to 32 bits.
    ("sub(sub(sub(sub(o,o),o),o),o)", 178_454_849),
    (WRAPPED, 1_237_138_790),
    (WRAPPED_SUM, 653_850_260),
];
/// Terms of the sample, and the lowest variable that occurs oftener in the right one, or 16.
pub const OFTENER: [(&str, &str, usize); 12] = [
    ("u+z", "u", 16),
    ("u+z", "u+u", 0),
    ("b", "u", 0),
    ("u", "v", 1),
    ("v", "u", 0),
    ("u+v", "v+u", 16),
    ("u+v", "v+v", 1),
    ("u+v", "sub(w,x)", 2),
    ("u+(u+v)", "(v+v)+(u+s)", 1),
    ("neg(y)", "neg(neg(s))", 5),
    ("o", "b", 16),
    ("u+neg(u)", "sub(u,u)", 16),
];

/// Rules of the sample with any variables, and what they are converted to.
pub const CONVERSIONS: [(&str, &str); 9] = [
    ("z -> o", "z -> o"),
    ("u+v -> u", "u+v -> u"),
    ("v+u -> u", "u+v -> v"),
    ("s -> s", "u -> u"),
    ("sub(y,x) -> x", "sub(u,v) -> v"),
    ("neg(w) -> v", "neg(u) -> v"),
    ("o -> sub(s,u)", "o -> sub(u,v)"),
    ("(v+v)+u -> (u+w)+v", "(u+u)+v -> (v+w)+u"),
    ("s+(y+(x+(w+(v+u)))) -> u+(v+(w+(x+(y+s))))", "u+(v+(w+(x+(y+s)))) -> s+(y+(x+(w+(v+u))))"),
];

/// Traps that show in the sample.
const SAMPLE_TRAPS: [Case; 13] = [
    // AC-equivalent members are cancelled.
    ("neg(z+o)+z -> neg(o+z)+o", 6, 0),
    ("neg(neg(z+o)+b)+z -> neg(b+neg(o+z))+o", 6, 0),
    ("sub(z+o,z) -> sub(o+z,o)", 3, 0),
    ("neg(z+o)+(z+z) -> neg(o+z)+b", 5, 0),
    // Variables are tested before weight.
    ("b -> u", 7, 2),
    ("neg(neg(o)) -> u", 7, 2),
    ("u -> neg(v)", 7, -1),
    // Equal weights of one root are settled by arguments.
    ("sub(neg(o),o) -> sub(o,neg(o))", 3, 0),
    ("sub(o,neg(o)) -> sub(neg(o),o)", 10, 0),
    ("neg(neg(z)) -> neg(neg(o))", 3, 0),
    ("sub(sub(z,o),u) -> sub(sub(o,z),u)", 3, 0),
    ("sub(u,z) -> sub(z,u)", 10, 0),
    ("sub(z,u) -> sub(u,z)", 10, 0),
];

/// Traps of top-flattenings.
const TRAPS: [Case; 23] = [
    // Surplus variables of the right join its high part. The low g(u) covers no variable; without the surplus
    // variable u the first mark would be 4.
    ("h(z)+g(u) -> (h(o)+u)+o", 10, 0),
    ("h(z)+g(o) -> (h(o)+z)+o", 4, 0),
    ("(h(z)+u)+c -> (h(o)+u)+c", 4, 0),
    ("h(h(u))+c -> (h(o)+u)+o", 4, 0),
    ("h(c+u)+o -> (h(c)+u)+o", 4, 0),
    // Surplus variables are counted by occurrence. The left has u once among its members, the right twice: one of
    // them is surplus.
    ("(u+h(z))+g(u) -> ((u+u)+h(o))+o", 10, 0),
    ("(u+u)+c -> u+u", 1, 3),
    // Flattening stops at another AC symbol.
    ("(d*z)+o -> (d*o)+z", 4, 0),
    ("(d*o)+z -> (d*z)+o", 10, 0),
    ("(d+z)*o -> (d+o)*z", 6, 0),
    ("(d+(z*o))+o -> (o+(o*z))+d", 9, 0),
    // One member cancels one member.
    ("h(z)+c -> h(z)+h(z)", 10, 0),
    ("(z+z)+o -> (z+o)+o", 6, 0),
    ("(z+o)+o -> (z+z)+o", 10, 0),
    // One left-over member covers several.
    ("h(h(d))+o -> h(z)+h(o)", 4, 0),
    ("(d+c)+(o+o) -> (z+z)+(c+o)", 6, 0),
    // A cancelled member covers nothing. h(z) is cancelled against h(z); then h(o) covers h(o), but nothing is left
    // to cover the third term.
    ("(h(z)+h(o))+o -> (h(z)+h(o))+z", 10, 0),
    ("(h(z)+c)+o -> (h(z)+h(o))+o", 10, 0),
    // All members are counted. Variables count too; and low members that are above others do not help where members
    // are fewer.
    ("(u+v)+o -> u+g(o)", 5, 0),
    ("(h(z)+u)+o -> h(z)+g(o)", 5, 0),
    ("(o+o)+z -> g(o)+z", 5, 0),
    ("g(o)+z -> (o+o)+z", 10, 0),
    ("g(o)+u -> (o+o)+u", 10, 0),
];

/// The sample and the traps, in the order in which the program `cases` has them.
pub fn examples() -> [Example; 3] {
    [
        Example::new("sample", sample(), &CASES),
        Example::new("sample, traps", sample(), &SAMPLE_TRAPS),
        Example::new("traps", trap_theory(), &TRAPS),
    ]
}
