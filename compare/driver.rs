//! A driver at work: a program that makes the calls which come on its standard input, and answers on its standard output.

use std::io::{self, BufReader, BufWriter, Read};
use std::process::{Child, ChildStdin, ChildStdout, Command, Stdio};
use std::sync::atomic::{AtomicU64, Ordering};
use std::thread;

pub type Input = BufWriter<ChildStdin>;
pub type Output = BufReader<ChildStdout>;

/// What a driver lays before each buffer, and sends back with it.
const MARGIN: [u8; 32] = [0xA5; 32];

pub struct Driver {
    child: Child,
    input: Input,
    output: Output,
}

impl Driver {
    pub fn new(command: &[String]) -> Driver {
        let mut child = Command::new(&command[0])
            .args(&command[1..])
            .stdin(Stdio::piped())
            .stdout(Stdio::piped())
            .spawn()
            .unwrap_or_else(|fault| panic!("cannot run {}: {}", command[0], fault));
        let input = BufWriter::with_capacity(1 << 16, child.stdin.take().expect("its input is a pipe"));
        let output = BufReader::with_capacity(1 << 16, child.stdout.take().expect("its output is a pipe"));
        Driver { child, input, output }
    }

    /// Sends all cases and has them flushed, and gives what was received for each.
    pub fn answers<C: Sync, A>(
        &mut self,
        cases: &[C],
        send: impl Fn(&mut Input, &C) -> io::Result<()> + Send,
        flush: impl FnOnce(&mut Input) -> io::Result<()> + Send,
        receive: impl Fn(&mut Output, &C) -> io::Result<A>,
    ) -> Vec<A> {
        let (input, output) = (&mut self.input, &mut self.output);
        thread::scope(|scope| {
            scope.spawn(move || {
                for case in cases {
                    send(input, case).expect("the driver takes calls");
                }
                flush(input).expect("the driver takes calls");
            });
            cases.iter().map(|case| receive(output, case).expect("the driver answers")).collect()
        })
    }

    /// Ends the driver, which has to end well.
    pub fn end(self) {
        let Driver { mut child, input, output } = self;
        drop((input, output));
        let status = child.wait().expect("the driver ends");
        assert!(status.success(), "the driver ended with {}", status);
    }
}

/// Runs drivers that spoil something, each told by a number what. Gives a fault for each whose answers do not differ.
pub fn not_caught<C, A>(
    command: &[String],
    spoiled: &[&str],
    cases: &[C],
    answers: impl Fn(&mut Driver, &[C]) -> Vec<(A, Vec<String>)>,
    difference: impl Fn(&C, &A, &[String]) -> Option<String>,
) -> Vec<String> {
    let mut faults = Vec::new();
    for (what, name) in spoiled.iter().enumerate() {
        let mut driver = Driver::new(&[command, &[what.to_string()]].concat());
        let answers = answers(&mut driver, cases);
        let mut pairs = cases.iter().zip(&answers);
        if !pairs.any(|(case, (answered, changed))| difference(case, answered, changed).is_some()) {
            faults.push(format!("NOT CAUGHT: a driver that {}", name));
        }
        driver.end();
    }
    faults
}

/// Does the work of so many batches, each by its number, on every processor with a driver of its own.
pub fn in_batches(command: &[String], batches: u64, work: impl Fn(&mut Driver, u64) + Sync) {
    let next = AtomicU64::new(0);
    let workers = thread::available_parallelism().map_or(1, |count| count.get());
    thread::scope(|scope| {
        for _ in 0..workers {
            scope.spawn(|| {
                let mut driver = Driver::new(command);
                loop {
                    let number = next.fetch_add(1, Ordering::Relaxed);
                    if number >= batches {
                        break;
                    }
                    work(&mut driver, number);
                }
                driver.end();
            });
        }
    });
}

/// Reads one buffer back, and adds its name to the faults where the margin before it is not what it was.
pub fn buffer(from: &mut impl Read, length: usize, name: &str, faults: &mut Vec<String>) -> io::Result<Vec<u8>> {
    let mut margin = [0; MARGIN.len()];
    from.read_exact(&mut margin)?;
    if margin != MARGIN {
        faults.push(format!("bytes before the {} changed", name));
    }
    let mut bytes = vec![0; length];
    from.read_exact(&mut bytes)?;
    Ok(bytes)
}

/// Reads back a buffer that no call may change, and adds its name to the faults where it is not what it was.
pub fn kept(from: &mut impl Read, before: &[u8], name: &str, faults: &mut Vec<String>) -> io::Result<()> {
    if buffer(from, before.len(), name, faults)? != before {
        faults.push(format!("the {} changed", name));
    }
    Ok(())
}
