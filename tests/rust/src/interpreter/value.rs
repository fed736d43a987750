//! Kinds, values and the arithmetic of sums, whole `/` as order 2 of document 02 has it.

#[derive(Clone, Copy, Debug, PartialEq, Eq)]
pub enum Kind {
    Whole,
    Bool,
    Real,
}

#[derive(Clone, Copy, Debug)]
pub enum Value {
    Whole(i32),
    Bool(bool),
    Real(f64),
}

/// A cell, or what a sum gives: `None` is unset.
pub type Cell = Option<Value>;

/// The bare machine stops: a name is unknown, or values of unfitting kinds meet.
#[derive(Clone, Copy, Debug, PartialEq, Eq)]
pub struct Stop;

#[derive(Clone, Copy, Debug, PartialEq, Eq)]
pub enum Operator {
    Plus,
    Minus,
    Times,
    Over,
}

impl Value {
    pub fn kind(self) -> Kind {
        match self {
            Value::Whole(_) => Kind::Whole,
            Value::Bool(_) => Kind::Bool,
            Value::Real(_) => Kind::Real,
        }
    }

    /// Bit by bit, as readings are compared; the two zeros are not the same.
    pub fn same_bits(self, other: Value) -> bool {
        match (self, other) {
            (Value::Whole(a), Value::Whole(b)) => a == b,
            (Value::Bool(a), Value::Bool(b)) => a == b,
            (Value::Real(a), Value::Real(b)) => a.to_bits() == b.to_bits(),
            _ => false,
        }
    }
}

/// "Equal" needs two set values; reals compare by value.
pub fn equal(a: Cell, b: Cell) -> Result<bool, Stop> {
    match (a, b) {
        (None, _) | (_, None) => Ok(false),
        (Some(Value::Whole(a)), Some(Value::Whole(b))) => Ok(a == b),
        (Some(Value::Bool(a)), Some(Value::Bool(b))) => Ok(a == b),
        (Some(Value::Real(a)), Some(Value::Real(b))) => Ok(a == b),
        _ => Err(Stop),
    }
}

/// `changed`: unset differs from any value, not from unset.
pub fn differ(a: Cell, b: Cell) -> Result<bool, Stop> {
    match (a, b) {
        (None, None) => Ok(false),
        (None, _) | (_, None) => Ok(true),
        _ => equal(a, b).map(|same| !same),
    }
}

/// What `a` and `b` give. `over` is whole `/`: `quotient`, but for machines that are wrong on purpose.
pub fn operate(operator: Operator, a: Cell, b: Cell, over: impl Fn(i64, i64) -> Cell) -> Result<Cell, Stop> {
    match (a, b) {
        // A bool never fits an operator, not even beside unset.
        (Some(Value::Bool(_)), _) | (_, Some(Value::Bool(_))) => Err(Stop),
        (None, _) | (_, None) => Ok(None),
        (Some(Value::Whole(a)), Some(Value::Whole(b))) => Ok(wholes(operator, i64::from(a), i64::from(b), over)),
        (Some(Value::Real(a)), Some(Value::Real(b))) => Ok(reals(operator, a, b)),
        _ => Err(Stop),
    }
}

fn wholes(operator: Operator, a: i64, b: i64, over: impl Fn(i64, i64) -> Cell) -> Cell {
    match operator {
        Operator::Plus => whole(a + b),
        Operator::Minus => whole(a - b),
        Operator::Times => whole(a * b),
        Operator::Over => over(a, b),
    }
}

/// A whole, or unset outside 32 bits.
pub fn whole(value: i64) -> Cell {
    i32::try_from(value).ok().map(Value::Whole)
}

/// Document 02, order 2: "Whole `/` rounds toward minus infinity: -7 / 2 is -4, 7 / -2 is -4, -7 / -2 is 3. A zero divisor and
/// -2147483648 / -1 still give unset."
pub fn quotient(a: i64, b: i64) -> Cell {
    if b == 0 {
        return None;
    }
    // Rust's `/` drops the fraction. That rounds down as well, unless there is a fraction and the quotient is below zero: then the next
    // whole below is meant.
    let dropped = a / b;
    let has_fraction = dropped * b != a;
    let below_zero = (a < 0) != (b < 0);
    whole(if has_fraction && below_zero { dropped - 1 } else { dropped })
}

fn reals(operator: Operator, a: f64, b: f64) -> Cell {
    let result = match operator {
        Operator::Plus => a + b,
        Operator::Minus => a - b,
        Operator::Times => a * b,
        Operator::Over => a / b,
    };
    result.is_finite().then_some(Value::Real(result))
}

/// Unary `-`: for reals IEEE negation, which `0 - x` is not.
pub fn negate(a: Cell) -> Result<Cell, Stop> {
    match a {
        None => Ok(None),
        Some(Value::Whole(a)) => Ok(whole(-i64::from(a))),
        Some(Value::Real(a)) => Ok(Some(Value::Real(-a))),
        Some(Value::Bool(_)) => Err(Stop),
    }
}

/// `real` takes a whole.
pub fn to_real(a: Cell) -> Result<Cell, Stop> {
    match a {
        None => Ok(None),
        Some(Value::Whole(a)) => Ok(Some(Value::Real(f64::from(a)))),
        Some(_) => Err(Stop),
    }
}
