//! What a field of a line is, by the fields before it, also in a line that is not
//! finished.

use model::form::{shape_of, Operand, Tail, ATOM_SHAPES};

/// What a field is. Where it names a part of a card, the card's variable comes with it.
#[derive(Clone, Debug, PartialEq, Eq)]
pub enum Role<'l> {
    /// The first word of the line.
    Word,
    AtomWord,
    /// The word of an atom that is a condition.
    ConditionWord,
    Type,
    /// The class of `new`.
    Class,
    Variable,
    Expression,
    Field(&'l str),
    Method(&'l str),
    /// A name that the line declares.
    NewClass,
    NewField,
    NewMethod,
    NewVariable,
    /// Nothing may stand there, or it is not known what.
    Nothing,
}

fn operand<'l>(operand: Operand, before: &'l str) -> Role<'l> {
    match operand {
        Operand::Type => Role::Type,
        Operand::Variable => Role::Variable,
        Operand::Expression => Role::Expression,
        Operand::Name => Role::Field(before),
    }
}

/// The role of a field after the operands: a part of an atom.
fn in_formula<'l>(fields: &[&'l str], at: usize, place: usize, tail: Tail) -> Role<'l> {
    let part = place % 3;
    let word = fields.get(at - part).copied().unwrap_or("");
    let atom = ATOM_SHAPES.iter().find(|atom| atom.word == word);
    match (tail, part, atom) {
        (Tail::Nothing, ..) => Role::Nothing,
        (Tail::Condition, ..) if place > 2 => Role::Nothing,
        (Tail::Condition | Tail::Loop, ..) if place == 0 => Role::ConditionWord,
        (_, 0, _) => Role::AtomWord,
        (_, part, Some(atom)) => operand(atom.operands[part - 1].1, fields[at - 1]),
        _ => Role::Nothing,
    }
}

/// The role of the field at a place of its line.
pub fn role<'l>(fields: &[&'l str], at: usize) -> Role<'l> {
    let word = fields.first().copied().unwrap_or("");
    if at == 0 {
        return Role::Word;
    }
    let Some(shape) = shape_of(word.as_bytes()) else {
        return Role::Nothing;
    };
    let operands = shape.operands.len();
    if at > operands {
        return in_formula(fields, at, at - operands - 1, shape.tail);
    }
    match (word, at, shape.operands[at - 1].1) {
        ("class", ..) => Role::NewClass,
        ("field", 2, _) => Role::NewField,
        ("method", 2, _) => Role::NewMethod,
        ("method", 4, _) | ("var", 2, _) => Role::NewVariable,
        ("call", 3, _) => Role::Method(fields[at - 1]),
        ("new", 2, _) => Role::Class,
        (_, _, known) => operand(known, fields[at - 1]),
    }
}

#[cfg(test)]
mod tests {
    use super::*;

    #[test]
    fn of_each_field() {
        use Role::*;
        for (line, roles) in [
            ("class C", vec![Word, NewClass]),
            ("field int n", vec![Word, Type, NewField]),
            (
                "method T m U w",
                vec![Word, Type, NewMethod, Type, NewVariable],
            ),
            (
                "set x f y z",
                vec![Word, Variable, Field("x"), Variable, Nothing],
            ),
            (
                "call x y m z",
                vec![Word, Variable, Variable, Method("y"), Variable],
            ),
            ("open y x f", vec![Word, Variable, Variable, Field("x")]),
            ("new x C", vec![Word, Variable, Class]),
            (
                "loop ne a b acc x f",
                vec![
                    Word,
                    ConditionWord,
                    Expression,
                    Expression,
                    AtomWord,
                    Variable,
                    Field("x"),
                ],
            ),
            (
                "if eq a b eq",
                vec![Word, ConditionWord, Expression, Expression, Nothing],
            ),
            ("assert who x f", vec![Word, AtomWord, Nothing, Nothing]),
            ("who x", vec![Word, Nothing]),
            ("", vec![Word]),
        ] {
            let fields: Vec<&str> = line.split(' ').collect();
            let found: Vec<Role> = (0..fields.len()).map(|at| role(&fields, at)).collect();
            assert_eq!(found, roles, "{line}");
        }
    }
}
