//! Tables to search.

ghost use Rattle.std.specs.Prelude.{IfOk};
ghost use Rattle.rx_order.specs.RowOrder.{IsInOrder};

use crate::Fault;
use rx_base::ByteSet;
use rx_build::dense::{Builder, Config, DenseBuild};
use rx_dense::OwnedDFA;
use rx_expr::{Expr, ExprError, thompson};
use std::alloc::Global;

/// The needles of accelerated states. No letter of a text is one.
pub(crate) const NEEDLES: [u8; 3] = *b"xyz";

/// The letters that the states of the table `literal` wait for, one after another.
const LITERAL: &[u8] = b"literal";

/// Half of the letters of a text.
const HALF: &[u8] = b"abcdefghijkl";

/// A byte that is in no text. Each pattern ends with it, so that a search reads the whole text.
const NEVER: &[u8] = b"\0";

/// What a table remembers of the bytes read.
#[derive(Clone, Copy, Debug, PartialEq, Eq)]
pub(crate) enum Kind {
    /// How many letters of a literal were read last.
    Literal,
    /// Whether the last byte was in one half of the letters, so that a text leads to and fro between two states.
    Halves,
    /// Whether the last byte was a needle, of which there is one. The state for the other bytes is accelerated.
    One,
    /// The same with two needles.
    Two,
    /// The same with three needles.
    Three,
}

impl Kind {
    /// The kind of this name.
    pub(crate) fn named(name: &str) -> Option<Kind> {
        match name {
            "literal" => Some(Kind::Literal),
            "halves" => Some(Kind::Halves),
            "one" => Some(Kind::One),
            "two" => Some(Kind::Two),
            "three" => Some(Kind::Three),
            _ => None,
        }
    }

    /// What the table looks for, up to the byte that never comes.
    fn pattern(self, alloc: Global) -> Result<Expr, ExprError> {
        match self {
            Kind::Literal => Expr::literal(alloc, LITERAL),
            Kind::Halves => Ok(one_of(HALF)),
            Kind::One => Ok(one_of(&NEEDLES[..1])),
            Kind::Two => Ok(one_of(&NEEDLES[..2])),
            Kind::Three => Ok(one_of(&NEEDLES)),
        }
    }

    fn is_accelerated(self) -> bool {
        match self {
            Kind::Literal | Kind::Halves => false,
            Kind::One | Kind::Two | Kind::Three => true,
        }
    }
}

/// One of some bytes.
fn one_of(bytes: &[u8]) -> Expr {
    let mut set = ByteSet::empty();
    for byte in bytes {
        set.add(*byte);
    }
    Expr::class(set)
}

/// The table of a kind, with a class for each byte.
pub(crate) fn make_table(alloc: Global, kind: Kind) -> Result<OwnedDFA, Fault>
    ensures { IfOk result (λ dfa. IsInOrder dfa) }
{
    let never = Expr::literal(alloc, NEVER)?;
    let expr = Expr::concat(alloc, kind.pattern(alloc)?, never)?;
    let config = Config::new().byte_classes(false);
    let mut builder = Builder::new();
    builder.configure(config.accelerate(kind.is_accelerated()));
    builder.thompson(thompson::Config::new().utf8(false));
    Ok(builder.build_many(alloc, &[expr])?)
}
