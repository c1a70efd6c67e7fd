//! Java is the judge: random methods that are taken run on a Java machine with
//! a probe after each instruction, and what is written for them runs on the
//! proved machine.
//!
//! `jvm [methods] [first seed]`, with java and javac on the PATH. After each
//! instruction that is read (a pair as one, iinc as one) all variables, the
//! whole stack and which objects the thread holds are the same, where the proved
//! machine answers 0, 1 or 2; so is where a branch goes and which handler is
//! entered, and whether the method returns or throws at its end. How often a
//! lock is held is not compared: Java does not tell; nor what a failed new does,
//! since none fails here. Nothing is compared behind a fault of the method's own
//! (a lock given back that is not held or is null, one that is held at the end),
//! nor behind the 60th probe; any other fault is a difference. Ends with status 1
//! if anything differs.

mod class;
mod code;
mod compare;
mod constants;
mod java;
mod machine;
mod method;

use compare::Figures;
use generator::rng::Rng;
use machine::{arguments, Machine};
use method::Method;
use std::io::Error;
use std::process::ExitCode;

fn main() -> ExitCode {
    let mut numbers = std::env::args().skip(1).map(|word| word.parse::<u64>());
    let mut next = |otherwise| numbers.next().unwrap_or(Ok(otherwise));
    let (Ok(methods), Ok(first)) = (next(60), next(0)) else {
        eprintln!("jvm [methods] [first seed]");
        return ExitCode::FAILURE;
    };
    match judge(first..first + methods) {
        Ok(figures) => {
            figures.print();
            match figures.differences {
                0 => ExitCode::SUCCESS,
                _ => ExitCode::FAILURE,
            }
        }
        Err(error) => {
            eprintln!("jvm: {error}");
            ExitCode::FAILURE
        }
    }
}

fn judge(seeds: std::ops::Range<u64>) -> Result<Figures, Error> {
    let mut made = vec![];
    for seed in seeds.clone() {
        let mut rng = Rng::new(seed);
        let method = Method::random(&mut rng);
        made.push((method, arguments(&mut rng)));
    }
    let methods: Vec<Method> = made.iter().map(|(method, _)| method.clone()).collect();
    let words = made.iter().map(|(_, (_, words, _))| words.as_str());
    let told = java::run(&class::class(&methods), words)?;
    let mut figures = Figures::default();
    for ((seed, (method, (values, _, state))), told) in seeds.zip(made).zip(told) {
        match Machine::new(&method, &values, state)? {
            Some(machine) => figures.add(seed, &method, machine, &told)?,
            None => figures.differ(seed, "the method is not taken"),
        }
    }
    Ok(figures)
}
