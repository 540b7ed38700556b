//! `main FILE ic3|bmc|corr [DEPTH]` asks one engine about the bad literal 0 of a circuit, or about its output 0 where it
//! has outputs alone, and prints what the engine answers and how many steps it spent. Nobody judges the answer.
//!
//! It prints `safe, N clauses`, `unsafe, N times` of its run, or `unknown`, and why; and behind that the steps.
//!
//! DEPTH is that of the bounded search, alone or behind correspondence: at most 255 steps, 20 where it is left out. The
//! status is 0 for `safe`, 1 for `unsafe`, 2 for `unknown`, and 3 where nothing was answered.

use base::{Budget, FromRead};
use bmc::Bmc;
use cdcl::Cdcl;
use cone_of_influence::ConeOfInfluence;
use correspondence::Corresponding;
use engine::{Engine, Finding, Reason};
use graph::Model;
use ic3::Ic3;
use kit::alloc::Global;
use std::fs::File;
use std::process::ExitCode;

const USAGE: &str = "main FILE ic3|bmc|corr [DEPTH]";

/// How many steps a search may take: more than any takes.
const STEPS: u64 = 1 << 60;

/// The depth of bounded search where it is left out.
const DEPTH: u32 = 20;

/// The circuit of a file, with the one bad literal that is asked about.
fn circuit_of(path: &str) -> Result<Model, String> {
    let file = File::open(path).map_err(|why| format!("{path}: {why}"))?;
    let read = aiger::load(Global, &mut FromRead::new(file));
    let read = read.map_err(|why| format!("{path}: {why:?}"))?;
    let circuit = read.model();
    let alone = match circuit.bad() {
        [] => circuit.for_output(Global, 0),
        _ => circuit.for_bad(Global, 0),
    };
    alone.map_err(|why| format!("{path}: {why}"))
}

/// Bounded search through runs of at most so many steps.
fn bounded(depth: u32) -> Bmc<Cdcl, engine::Silent> {
    Bmc::new(Cdcl::new(Global), depth)
}

/// The engine of this name.
fn engine_of(name: &str, depth: Option<u32>) -> Result<Box<dyn Engine>, String> {
    let solver = Cdcl::new(Global);
    match (name, depth) {
        ("ic3", None) => Ok(Box::new(ConeOfInfluence::new(Ic3::new(solver)))),
        ("bmc", _) => Ok(Box::new(ConeOfInfluence::new(bounded(
            depth.unwrap_or(DEPTH),
        )))),
        ("corr", _) => {
            let behind = bounded(depth.unwrap_or(DEPTH));
            Ok(Box::new(Corresponding::new(solver, behind)))
        }
        _ => Err(USAGE.into()),
    }
}

/// The depth that a word says.
fn depth_of(word: &str) -> Result<u32, String> {
    let depth = word.parse::<u8>().map_err(|why| format!("{word}: {why}"))?;
    Ok(depth.into())
}

/// What was found, in words, and its status.
fn told(finding: &Finding) -> (String, u8) {
    match finding {
        Finding::Invariant(clauses) => (format!("safe, {} clauses", clauses.len()), 0),
        Finding::Run { inputs, .. } => (format!("unsafe, {} times", inputs.len()), 1),
        Finding::Unknown(Reason::Budget) => ("unknown, the budget is spent".into(), 2),
        Finding::Unknown(Reason::Depth(depth)) => (format!("unknown, {depth} steps"), 2),
        Finding::Unknown(Reason::NoEvidence) => ("unknown, no evidence".into(), 2),
    }
}

/// Asks what the words say, and answers the status.
fn ask(words: &[String]) -> Result<u8, String> {
    let (path, name, depth) = match words {
        [path, name] => (path, name, None),
        [path, name, depth] => (path, name, Some(depth_of(depth)?)),
        _ => return Err(USAGE.into()),
    };
    let mut engine = engine_of(name, depth)?;
    let circuit = circuit_of(path)?;
    let mut budget = Budget::new(STEPS);
    let finding = engine.find(Global, &circuit, &mut budget);
    let (answer, status) = told(&finding.map_err(|why| format!("{path}: {why:?}"))?);
    println!("{answer}; {} spent", budget.spent());
    Ok(status)
}

fn main() -> ExitCode {
    let words: Vec<String> = std::env::args().skip(1).collect();
    let status = ask(&words).unwrap_or_else(|why| {
        eprintln!("main: {why}");
        3
    });
    ExitCode::from(status)
}
