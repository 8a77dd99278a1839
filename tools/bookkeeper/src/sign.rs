//! The signs of a text, and the names that they make: words and operators.

/// What stands between the sides of a rule, and between the symbols of an order.
pub const ARROW: &str = "->";
pub const ABOVE: &str = ">";

/// Whether a character is a part of a word.
pub fn in_word(sign: char) -> bool {
    sign.is_alphanumeric() || sign == '_' || sign == '\''
}

/// Whether a character is a part of an operator.
pub fn in_operator(sign: char) -> bool {
    !in_word(sign) && !sign.is_whitespace() && !sign.is_control() && !"(),#".contains(sign)
}

/// Whether a name is an operator, which may stand between its arguments.
pub fn is_operator(name: &str) -> bool {
    name.chars().all(in_operator)
}

/// Whether a name is a word.
pub fn is_word(name: &str) -> bool {
    name.chars().all(in_word)
}

/// Whether a symbol may be called by a name: a word, or an operator other than those that have a meaning.
pub fn is_name(name: &str) -> bool {
    !name.is_empty() && (is_word(name) || is_operator(name)) && ![ARROW, ABOVE].contains(&name)
}
