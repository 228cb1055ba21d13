//! Another build of this program beside this one, linked with another archive: it has the same inputs, and does a turn of the library when it
//! is told to, so that both builds of the library are measured in one run.

use crate::inputs::Inputs;
use std::io::{self, BufRead, BufReader, Write};
use std::process::{Child, ChildStdin, ChildStdout, Command, Stdio};

/// The word that makes a program do what it is told to.
pub const SERVE: &str = "--serve";

pub struct Beside {
    child: Child,
    orders: ChildStdin,
    times: BufReader<ChildStdout>,
}

impl Beside {
    /// Starts the program, which compares its answers first.
    pub fn start(program: &str) -> io::Result<Beside> {
        let mut command = Command::new(program);
        let command = command.arg(SERVE).stdin(Stdio::piped()).stdout(Stdio::piped());
        let mut child = command.spawn()?;
        let (orders, times) = (child.stdin.take(), child.stdout.take());
        let (Some(orders), Some(times)) = (orders, times) else { unreachable!("both are piped") };
        let mut beside = Beside { child, orders, times: BufReader::new(times) };
        match beside.line()?.as_str() {
            "ready" => Ok(beside),
            other => {
                Err(io::Error::other(format!("{program} says {other:?} and not that it is ready")))
            }
        }
    }

    fn line(&mut self) -> io::Result<String> {
        let mut line = String::new();
        self.times.read_line(&mut line)?;
        Ok(line.trim_end().to_owned())
    }

    /// Nanoseconds for a turn of this row over these inputs, by their numbers.
    pub fn time(&mut self, row: usize, set: usize) -> io::Result<f64> {
        writeln!(self.orders, "{row} {set}")?;
        self.line()?.parse().map_err(io::Error::other)
    }

    /// Ends the program.
    pub fn end(self) -> io::Result<()> {
        let Beside { mut child, orders, .. } = self;
        drop(orders);
        child.wait().map(drop)
    }
}

/// Does one turn after another, as standard input says, until it ends.
pub fn serve(sets: &[Inputs], turn: impl Fn(usize, &Inputs) -> f64) -> io::Result<()> {
    println!("ready");
    for order in io::stdin().lines() {
        let order = order?;
        let numbers = order
            .split_once(' ')
            .and_then(|(row, set)| Some((row.parse().ok()?, set.parse::<usize>().ok()?)));
        let Some((row, set)) = numbers else {
            return Err(io::Error::other(format!("no order: {order:?}")));
        };
        println!("{}", turn(row, &sets[set]));
    }
    Ok(())
}
