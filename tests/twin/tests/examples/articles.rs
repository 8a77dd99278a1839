//! The examples of the articles 000, 001 and 004 that 01's order can express, each with the article's own certificate.
//!
//! Examples left out, because 01's order cannot express them:
//! - 000, 4.5, 4.6, 4.9 and 4.11 compare by other orders; what they say of AC-KBO's own cases is below.
//! - 000, 5.11: the precedence is partial.
//! - 000, 7.6: the point is AC-RPO, a recursive path order.
//! - 000, 8.3: subterm coefficients.
//!
//! 000, 6.6 and section A.3 give conditions in place of a certificate; the weights below satisfy them.

use crate::common::{Example, Theory};

/// 000, Example 5.3: f > + > g > a > b > h; + and h weigh 0, f, a, b and a variable 1, g 2.
fn theory_5_3() -> Theory {
    let symbols = [("h", 2, 0, 0), ("b", 0, 1, 1), ("a", 0, 1, 2), ("g", 1, 2, 3), ("+", 2, 0, 4), ("f", 1, 1, 5)];
    Theory::new(1, &symbols)
}

fn example_5_3() -> Example {
    let cases = [
        ("f(x+y) -> f(x)+y", 2, 0),
        ("h(a,b) -> h(b,a)", 3, 0),
        ("h(g(a),a) -> h(a,g(b))", 3, 0),
        ("g(x)+y -> g(x+y)", 2, 0),
        ("h(a,g(g(a))) -> h(g(a),f(a))", 1, 1),
        ("h(g(a),b) -> h(a,g(a))", 3, 0),
        ("f(a)+g(b) -> f(b)+g(a)", 4, 0),
    ];
    Example::new("document 000, example 5.3", theory_5_3(), &cases)
}

fn example_5_3_reversed() -> Example {
    let cases = [
        ("f(x)+y -> f(x+y)", 10, 0),
        ("h(b,a) -> h(a,b)", 10, 0),
        ("h(a,g(b)) -> h(g(a),a)", 10, 0),
        ("g(x+y) -> g(x)+y", 10, 0),
        ("h(g(a),f(a)) -> h(a,g(g(a)))", 8, -1),
        ("h(a,g(a)) -> h(g(a),b)", 10, 0),
        ("f(b)+g(a) -> f(a)+g(b)", 10, 0),
    ];
    Example::new("document 000, example 5.3, reversed", theory_5_3(), &cases)
}

/// 000, Example 7.3: g > + > f > a; + weighs 0, g, a and a variable 1, f 3.
fn example_7_3() -> Example {
    let theory = Theory::new(1, &[("a", 0, 1, 0), ("f", 1, 3, 1), ("+", 2, 0, 2), ("g", 1, 1, 3)]);
    let cases = [
        // The first rule reverted, by three g(x) against one: a proper superset.
        ("g(x)+(g(x)+g(x)) -> f(x)+g(x)", 4, 0),
        ("f(x) -> g(x)+a", 1, 1),
        // The first rule as it stands breaks the variable condition.
        ("f(x)+g(x) -> g(x)+(g(x)+g(x))", 7, 0),
    ];
    Example::new("document 000, example 7.3", theory, &cases)
}

/// 000, Example 9.1, with e for the empty bit sequence: + weighs 0, the operator 0, e and a variable 1, the operator
/// 1 3. Every rule is decreasing by weight, so any precedence will do.
fn example_9_1() -> Example {
    let theory = Theory::new(1, &[("e", 0, 1, 0), ("zero", 1, 1, 1), ("one", 1, 3, 2), ("+", 2, 0, 3)]);
    let cases = [
        ("e+zero(e) -> e", 1, 2),
        ("x+e -> x", 1, 1),
        ("zero(x)+zero(y) -> zero(x+y)", 1, 1),
        ("zero(x)+one(y) -> one(x+y)", 1, 1),
        ("one(x)+one(y) -> zero((x+y)+e)", 1, 4),
    ];
    Example::new("document 000, example 9.1", theory, &cases)
}

/// 000, Example 6.6, the clause {x, not y, not z}, its symbols x, y and z named p, q and r, and Lemma A.10, which
/// carries it over to AC-KBO. The hypotheses are a > + > b, a > p, q, r, e0 > e1, and equal weights of a, b, p, q and
/// r. A symbol of rank above that of + is true.
fn example_6_6(of: &str, [p, q, r]: [u8; 3], weight_d: u16, [e0, e1, e2]: [u16; 3], mark: u8) -> Example {
    let low = [("c", 0, 1, 0), ("d", 0, weight_d, 1), ("b", 1, 1, 2)];
    let variable = [("p", 1, 1, p), ("q", 1, 1, q), ("r", 1, 1, r)];
    let high = [("+", 2, 1, 10), ("a", 1, 1, 20)];
    let rest = [("e0", 1, e0, 32), ("e1", 1, e1, 31), ("e2", 1, e2, 30)];
    let theory = Theory::new(1, &[&low[..], &variable, &high, &rest].concat());
    let left = "b(b(c+c))+p(b(d))+a(e0(e1(c)))+q(e1(e2(c)))+r(e2(e0(c)))";
    let right = "b(c)+b(c)+b(p(d))+a(e0(e0(c)))+q(e1(e1(c)))+r(e2(e2(c)))";
    let rule = format!("{left} -> {right}");
    Example::new(&format!("document 000, example 6.6, {of}"), theory, &[(&rule, mark, 0)])
}

/// The clause under four assignments.
fn examples_6_6() -> Vec<Example> {
    let mut examples = vec![
        // The weight of d makes the rule decreasing.
        example_6_6("x, y and z true", [11, 12, 13], 9, [1, 1, 1], 4),
        // The weight of e2 does.
        example_6_6("x and z false", [3, 12, 4], 1, [1, 1, 9], 4),
        // The weight of e1 does.
        example_6_6("x, y and z false", [3, 4, 5], 1, [1, 9, 1], 4),
    ];
    // No weight of e0, e1 or e2 does.
    for weights in [[1, 1, 1], [1, 1, 9], [1, 9, 1], [9, 1, 1], [5, 7, 9], [9, 7, 5]] {
        let [e0, e1, e2] = weights;
        examples.push(example_6_6(&format!("x alone false, {e0} {e1} {e2}"), [3, 12, 13], 1, weights, 10));
    }
    examples
}

/// 000, the base system before Lemma 6.5 and the one of A.3, for two symbols p and q: a > + > b, a > p, q, e0 > e1, and
/// equal weights of a, b, p and q.
fn base_systems() -> Example {
    let symbols = [("c", 0, 1, 0), ("b", 1, 2, 1), ("p", 1, 2, 2), ("+", 2, 1, 3), ("q", 1, 2, 4), ("a", 1, 2, 5)];
    let theory = Theory::new(1, &[&symbols[..], &[("e0", 1, 1, 7), ("e1", 1, 3, 6)]].concat());
    let cases = [
        ("a(c+c) -> a(c)+c", 2, 0),
        ("b(c)+c -> b(c+c)", 2, 0),
        ("a(b(b(c))) -> b(a(a(c)))", 2, 0),
        ("a(p(c)) -> b(q(c))", 2, 0),
        ("a(q(c)) -> b(a(c))", 2, 0),
        ("a(a(c)) -> b(p(c))", 2, 0),
        ("a(p(c)) -> p(a(c))", 2, 0),
        ("a(q(c)) -> q(a(c))", 2, 0),
        ("e0(e1(c)) -> e1(e0(c))", 2, 0),
    ];
    Example::new("document 000, base systems of section 6", theory, &cases)
}

/// 000, Examples 4.6 and 4.9: c weighs w0, f is of arity 1, g of arity 2, g > + > c. The order of Korovin and
/// Voronkov is not kept by the context + c; AC-KBO is.
fn examples_4_6_and_4_9() -> Example {
    let theory = Theory::new(1, &[("c", 0, 1, 0), ("+", 2, 1, 1), ("f", 1, 1, 2), ("g", 2, 1, 3)]);
    let cases = [("g(f(c),x) -> g(c,f(c))", 3, 0), ("g(f(c),x)+c -> g(c,f(c))+c", 4, 0)];
    Example::new("document 000, examples 4.6 and 4.9", theory, &cases)
}

/// 000, Examples 4.5, 4.8 and 4.11, and 004, Examples 3.7 and 3.9: f weighs 0.
fn symbol_over_variable() -> Example {
    let theory = Theory::new(1, &[("c", 0, 1, 0), ("+", 2, 1, 1), ("f", 1, 0, 2)]);
    let cases = [("f(c) -> c", 2, 0), ("f(x) -> x", 11, 0), ("f(x)+y -> x+y", 4, 0)];
    Example::new("documents 000 and 004, a symbol over a variable", theory, &cases)
}

/// 000, Examples 3.2 and 4.3, and 004, Example 3.4 and section 4, f > a > + and f > + > a: f weighs 0, for which alone
/// rule 1 is decreasing.
fn system_r1(precedence: &str, [a, plus]: [u8; 2], plus_weight: u16) -> Example {
    let theory = Theory::new(1, &[("a", 0, 1, a), ("+", 2, plus_weight, plus), ("f", 1, 0, 2)]);
    let cases = [("a+f(f(a)) -> f(a)+f(a)", 4, 0), ("f(a)+f(a) -> a+f(f(a))", 10, 0), ("f(a+a) -> f(a)+f(a)", 2, 0)];
    let title = format!("documents 000 and 004, R1, {precedence}, + weighs {plus_weight}");
    Example::new(&title, theory, &cases)
}

/// 004, Examples 3.1 and 3.2: the top-flattening of (a+b)+a, and the parts of {f(b), g(a), g(x), x, y} for f > + > g.
fn examples_3_1_and_3_2() -> Example {
    let theory = Theory::new(1, &[("b", 0, 1, 0), ("a", 0, 1, 1), ("g", 1, 1, 2), ("+", 2, 1, 3), ("f", 1, 1, 4)]);
    let cases = [
        ("(a+b)+a -> a+(a+b)", 9, 0),
        ("f(a)+g(b)+g(x)+x+y -> f(b)+g(a)+g(x)+x+y", 4, 0),
        ("f(b)+g(a)+g(x)+x+y -> f(b)+g(b)+g(x)+x+y", 6, 0),
    ];
    Example::new("document 004, examples 3.1 and 3.2", theory, &cases)
}

/// 001, section 5: + weighs 0, c, d and g 1, + > g. The sum is above g(c) in every context, though g(c) outweighs c
/// and d.
fn section_5() -> Example {
    let theory = Theory::new(1, &[("c", 0, 1, 0), ("d", 0, 1, 1), ("g", 1, 1, 2), ("+", 2, 0, 3), ("h", 1, 1, 4)]);
    let cases = [
        ("c+d -> g(c)", 2, 0),
        ("(x+c)+d -> x+g(c)", 5, 0),
        ("(h(x)+c)+d -> h(x)+g(c)", 5, 0),
        ("(g(x)+c)+d -> g(x)+g(c)", 5, 0),
    ];
    Example::new("document 001, section 5", theory, &cases)
}

/// 001, section 2.1, against 004: a proper superset is greater.
fn section_2_1() -> Example {
    let theory = Theory::new(1, &[("o", 0, 2, 0), ("+", 2, 1, 1), ("h", 1, 1, 2)]);
    Example::new("document 001, section 2.1", theory, &[("(h(x)+h(x))+o -> h(x)+(o+o)", 4, 0)])
}

/// All examples, in the order in which the program `cases` has them.
pub fn examples() -> Vec<Example> {
    let mut examples = vec![example_5_3(), example_5_3_reversed(), example_7_3(), example_9_1()];
    examples.extend(examples_6_6());
    examples.extend([base_systems(), examples_4_6_and_4_9(), symbol_over_variable()]);
    for plus_weight in [0, 1] {
        examples.push(system_r1("f > a > +", [1, 0], plus_weight));
        examples.push(system_r1("f > + > a", [0, 1], plus_weight));
    }
    examples.extend([examples_3_1_and_3_2(), section_5(), section_2_1()]);
    examples
}
