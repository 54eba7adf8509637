//! Builds, writes, reads, copies and searches the tables of a pattern that matches everywhere and of no pattern, in
//! both forms, alone and as a pair. `checks/refusals` makes one allocation fail in each run. Then the call that needs
//! it must report that memory ran out, everything from before must be unchanged, and the same calls must succeed when
//! they are made again.
//!
//! It writes a line for each table, and before it one for a call that ran out of memory. The status is 0 if none did, 7
//! if one did and all else is right, and 1 if something is wrong.
#![tactic(auto)]

ghost use Rattle.std.specs.Prelude.{IfOk};
ghost use Rattle.rx_dense.specs.Facts.{IsSoundLayout as IsSoundDense};
ghost use Rattle.rx_sparse.specs.Facts.{IsSoundLayout as IsSoundSparse};

use rx_base::Input;
use rx_build::dense::DenseBuild;
use rx_build::{BuildError, BuildErrorKind};
use rx_dense::{DFA, OwnedDFA};
use rx_image::{DenseRead, DenseWrite, SparseRead, SparseWrite, Tables, dense_pair, read_pair, sparse_pair};
use rx_search::Automaton;
use rx_sparse::DFA as SparseDFA;
use rx_sparse_build::SparseBuild;
use rx_wire::{DeserializeError, DeserializeErrorKind, Order};
use std::alloc::{AllocError, Global};
use std::io;
use std::process::ExitCode;

/// A result that differs from that with enough memory.
#[derive(Clone, Copy, PartialEq)]
enum Fault {
    /// A call ran out of memory.
    Memory(&'static str),
    /// A call returned something else.
    Wrong(&'static str),
}

/// The fault of a build.
fn build_fault(error: &BuildError, call: &'static str) -> Fault {
    match error.kind() {
        BuildErrorKind::Memory => Fault::Memory(call),
        _ => Fault::Wrong(call),
    }
}

/// The fault of a read.
fn read_fault(error: &DeserializeError, call: &'static str) -> Fault {
    match error.kind() {
        DeserializeErrorKind::Memory => Fault::Memory(call),
        _ => Fault::Wrong(call),
    }
}

/// A form of tables, and whether their pattern matches everywhere or there is none.
#[derive(Clone, Copy)]
struct Case {
    is_sparse: bool,
    always: bool,
}

const CASES: [Case; 4] = [
    Case {
        is_sparse: false,
        always: true,
    },
    Case {
        is_sparse: false,
        always: false,
    },
    Case {
        is_sparse: true,
        always: true,
    },
    Case {
        is_sparse: true,
        always: false,
    },
];

impl Case {
    fn name(self) -> &'static str {
        match (self.is_sparse, self.always) {
            (false, true) => "dense, everywhere",
            (false, false) => "dense, nowhere",
            (true, true) => "sparse, everywhere",
            (true, false) => "sparse, nowhere",
        }
    }

    /// The length of the image in bytes.
    fn size(self) -> usize {
        match (self.is_sparse, self.always) {
            (false, true) => 760,
            (false, false) => 732,
            (true, true) => 754,
            (true, false) => 722,
        }
    }

    /// Makes all calls.
    fn run(self, alloc: Global) -> Result<(), Fault> {
        if self.is_sparse {
            self.run_sparse(alloc)?;
            self.run_sparse_pair(alloc)
        } else {
            self.run_dense(alloc)?;
            self.run_dense_pair(alloc)
        }
    }

    /// A fault unless a table reports a match of pattern 0 at 0, or none if there is no pattern.
    fn search<A: Automaton>(self, dfa: &A) -> Result<(), Fault>
        requires { A.IsSound dfa.now }
    {
        let wanted = if self.always { Some((0, 0)) } else { None };
        match dfa.try_search_fwd(&Input::new(b"foo12345")) {
            Ok(found) => {
                let told = found.map(|found| (found.pattern().as_u32(), found.offset()));
                if told == wanted {
                    Ok(())
                } else {
                    Err(Fault::Wrong("search"))
                }
            }
            Err(_) => Err(Fault::Wrong("search")),
        }
    }

    fn build_dense(self, alloc: Global) -> Result<OwnedDFA, Fault>
        ensures { IfOk result IsSoundDense }
    {
        let built = if self.always {
            DFA::<Vec<u32>>::always_match(alloc)
        } else {
            DFA::<Vec<u32>>::never_match(alloc)
        };
        match built {
            Ok(dfa) => Ok(dfa),
            Err(error) => Err(build_fault(&error, "build")),
        }
    }

    /// What a call made of a table. If it ran out of memory, the table must still be as it was.
    fn made<A: Automaton, T: Drop>(
        self,
        dfa: &A,
        made: Result<T, AllocError>,
        call: &'static str,
    ) -> Result<T, Fault>
        requires { A.IsSound dfa.now }
    {
        match made {
            Ok(value) => Ok(value),
            Err(_) => {
                self.search(dfa)?;
                Err(Fault::Memory(call))
            }
        }
    }

    fn run_dense(self, alloc: Global) -> Result<(), Fault> {
        let dfa = self.build_dense(alloc)?;
        let (little, _) = self.made(&dfa, dfa.to_bytes_little_endian(alloc), "to_bytes")?;
        self.read_dense(alloc, little.as_slice())?;
        let (big, _) = self.made(&dfa, dfa.to_bytes_big_endian(alloc), "to_bytes")?;
        self.read_dense(alloc, big.as_slice())?;
        match dfa.to_owned(alloc) {
            Ok(copy) => self.search(&copy),
            Err(_) => {
                self.search(&dfa)?;
                Err(Fault::Memory("to_owned"))
            }
        }
    }

    /// Reads the image of a dense table, and searches with it.
    fn read_dense(self, alloc: Global, image: &[u8]) -> Result<(), Fault> {
        match DFA::<Vec<u32>>::from_bytes(alloc, image) {
            Ok((read, size)) if size == self.size() && size == image.len() => self.search(&read),
            Ok(_) => Err(Fault::Wrong("from_bytes")),
            Err(error) => Err(read_fault(&error, "from_bytes")),
        }
    }

    fn build_sparse(self, alloc: Global) -> Result<SparseDFA<Vec<u8>>, Fault>
        ensures { IfOk result (λ dfa. IsSoundSparse dfa.layout) }
    {
        let built = if self.always {
            SparseDFA::<Vec<u8>>::always_match(alloc)
        } else {
            SparseDFA::<Vec<u8>>::never_match(alloc)
        };
        match built {
            Ok(dfa) => Ok(dfa),
            Err(error) => Err(build_fault(&error, "build")),
        }
    }

    fn run_sparse(self, alloc: Global) -> Result<(), Fault> {
        let dfa = self.build_sparse(alloc)?;
        let little = self.made(&dfa, dfa.to_bytes_little_endian(alloc), "to_bytes")?;
        self.read_sparse(alloc, little.as_slice())?;
        let big = self.made(&dfa, dfa.to_bytes_big_endian(alloc), "to_bytes")?;
        self.read_sparse(alloc, big.as_slice())?;
        match dfa.to_owned(alloc) {
            Ok(copy) => self.search(&copy),
            Err(_) => {
                self.search(&dfa)?;
                Err(Fault::Memory("to_owned"))
            }
        }
    }

    /// Reads the image of a sparse table, and searches with it.
    fn read_sparse(self, alloc: Global, image: &[u8]) -> Result<(), Fault> {
        match SparseDFA::<&[u8]>::from_bytes(alloc, image) {
            Ok((read, size)) if size == self.size() && size == image.len() => self.search(&read),
            Ok(_) => Err(Fault::Wrong("from_bytes")),
            Err(error) => Err(read_fault(&error, "from_bytes")),
        }
    }

    /// Writes a dense table as both tables of a pair, and reads the pair.
    fn run_dense_pair(self, alloc: Global) -> Result<(), Fault> {
        let dfa = self.build_dense(alloc)?;
        for order in [Order::Little, Order::Big] {
            let image = self.made(&dfa, dense_pair(alloc, order, &dfa, &dfa), "dense_pair")?;
            self.read_pair(alloc, image.as_slice())?;
        }
        Ok(())
    }

    /// Writes a sparse table as both tables of a pair, and reads the pair.
    fn run_sparse_pair(self, alloc: Global) -> Result<(), Fault> {
        let dfa = self.build_sparse(alloc)?;
        for order in [Order::Little, Order::Big] {
            let image = self.made(&dfa, sparse_pair(alloc, order, &dfa, &dfa), "sparse_pair")?;
            self.read_pair(alloc, image.as_slice())?;
        }
        Ok(())
    }

    /// Reads the image of a pair of the same table twice, and searches with both.
    fn read_pair(self, alloc: Global, image: &[u8]) -> Result<(), Fault> {
        match read_pair(alloc, image) {
            Ok((_, len)) if len != self.size().saturating_mul(2).saturating_add(40) => {
                Err(Fault::Wrong("read_pair"))
            }
            Ok((Tables::Dense(forward, reverse), _)) => {
                self.search(&forward)?;
                self.search(&reverse)
            }
            Ok((Tables::Sparse(forward, reverse), _)) => {
                self.search(&forward)?;
                self.search(&reverse)
            }
            Err(error) => Err(read_fault(&error, "read_pair")),
        }
    }
}

/// Makes the calls of all tables, and repeats those of a table for which memory ran out. Returns whether it did.
fn run_all(rt: &HostRuntime) -> io::Result<Result<bool, &'static str>> {
    let mut refused = false;
    for case in CASES {
        let mut answer = case.run(rt.alloc());
        if let Err(Fault::Memory(call)) = answer {
            println!(rt; "{}: {call} is out of memory", case.name())?;
            refused = true;
            answer = case.run(rt.alloc());
        }
        match answer {
            Ok(()) => println!(rt; "{}: right", case.name())?,
            Err(Fault::Memory(call)) | Err(Fault::Wrong(call)) => return Ok(Err(call)),
        }
    }
    Ok(Ok(refused))
}

fn main(rt: HostRuntime) -> ExitCode {
    match run_all(&rt) {
        Ok(Ok(false)) => ExitCode::SUCCESS,
        Ok(Ok(true)) => ExitCode::from(7),
        _ => ExitCode::FAILURE,
    }
}
