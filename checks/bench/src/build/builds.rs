//! Builds that are timed.

ghost use Rattle.std.specs.Prelude.{IfOk};
ghost use Rattle.rx_order.specs.RowOrder.{IsInOrder};

use crate::Fault;
use crate::least::Least;
use rx_base::{MatchKind, StartKind};
use rx_build::dense::{Builder, Config, OwnedDFA};
use rx_expr::Expr;
use rx_expr::thompson::{self, Compiler, NFA};
use std::alloc::Global;
use std::time::Instant;

/// What is built of an NFA besides the table for searches.
#[derive(Clone, Copy, Debug, PartialEq, Eq)]
pub(crate) enum Parts {
    /// Nothing.
    Whole,
    /// A table without acceleration, and a minimized one without acceleration.
    Apart,
}

/// The direction in which a text is read.
#[derive(Clone, Copy, Debug, PartialEq, Eq)]
pub(crate) enum Direction {
    /// Forward, for the ends of leftmost-first matches.
    Forward,
    /// In reverse, for the starts of matches whose ends are known.
    Reverse,
}

impl Direction {
    /// The compiler of the NFA.
    fn compiler(self) -> Compiler {
        let mut compiler = Compiler::new();
        let config = thompson::Config::new().utf8(false);
        compiler.configure(config.reverse(self == Direction::Reverse));
        compiler
    }

    /// The NFA of some expressions.
    fn build_nfa(self, alloc: Global, exprs: &[Expr]) -> Result<NFA, Fault> {
        self.compiler()
            .build_many(alloc, exprs)
            .map_err(|error| Fault::Build(error.into()))
    }

    /// The builder of the table.
    fn builder(self, accelerate: bool, minimize: bool) -> Builder {
        let config = Config::new().accelerate(accelerate).minimize(minimize);
        let mut builder = Builder::new();
        builder.configure(match self {
            Direction::Forward => config,
            Direction::Reverse => config
                .match_kind(MatchKind::All)
                .start_kind(StartKind::Anchored),
        });
        builder
    }
}

/// The least times of the builds in one direction, and the sizes of the tables without acceleration.
#[derive(Clone, Copy, Debug)]
pub(crate) struct BuildTimes {
    /// The NFA.
    pub(crate) nfa: Least,
    /// The accelerated table.
    pub(crate) table: Least,
    /// The table without acceleration.
    pub(crate) plain: Least,
    /// The minimized table without acceleration.
    pub(crate) minimized: Least,
    /// The number of transitions of the table without acceleration, for all units of all states.
    pub(crate) cells: u64,
    /// The number of states that minimizing leaves.
    pub(crate) rows_left: usize,
}

impl BuildTimes {
    /// Nothing was built.
    pub(crate) fn new() -> BuildTimes {
        BuildTimes {
            nfa: Least::new(),
            table: Least::new(),
            plain: Least::new(),
            minimized: Least::new(),
            cells: 0,
            rows_left: 0,
        }
    }

    /// How much longer the minimized table took, in nanoseconds for each transition of the other one.
    pub(crate) fn minimizing(&self) -> u64 {
        let time = self.minimized.nanos().saturating_sub(self.plain.nanos());
        time.checked_div(self.cells).unwrap_or(0)
    }
}

/// Builds a table for searches and what else is asked for. Keeps the times that are less than before.
pub(crate) fn measure(
    rt: &HostRuntime,
    exprs: &[Expr],
    direction: Direction,
    parts: Parts,
    least: &mut BuildTimes,
) -> Result<OwnedDFA, Fault> {
    let begin = Instant::now(rt)?;
    let nfa = direction.build_nfa(rt.alloc(), exprs)?;
    least.nfa.take(begin.elapsed(rt)?);
    let builder = direction.builder(true, false);
    let table = build(rt, &builder, &nfa, &mut least.table)?;
    if parts == Parts::Apart {
        let builder = direction.builder(false, false);
        let plain = build(rt, &builder, &nfa, &mut least.plain)?;
        least.cells = (plain.state_len() as u64).saturating_mul(plain.alphabet_len() as u64);
        let builder = direction.builder(false, true);
        let minimized = build(rt, &builder, &nfa, &mut least.minimized)?;
        least.rows_left = minimized.state_len();
    }
    Ok(table)
}

/// The forward table of some expressions, without acceleration.
pub(crate) fn plain_table(alloc: Global, exprs: &[Expr]) -> Result<OwnedDFA, Fault>
    ensures { IfOk result (λ dfa. IsInOrder dfa) }
{
    let nfa = Direction::Forward.build_nfa(alloc, exprs)?;
    let builder = Direction::Forward.builder(false, false);
    Ok(builder.build_from_nfa(alloc, &nfa)?)
}

/// The table of an NFA. `least` takes the time of its build.
fn build(
    rt: &HostRuntime,
    builder: &Builder,
    nfa: &NFA,
    least: &mut Least,
) -> Result<OwnedDFA, Fault> {
    let begin = Instant::now(rt)?;
    let dfa = builder.build_from_nfa(rt.alloc(), nfa)?;
    least.take(begin.elapsed(rt)?);
    Ok(dfa)
}
