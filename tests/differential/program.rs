// Programs that answer requests: started once, and again whenever they have ended.

use crate::request::Request;
use std::io::{BufRead, BufReader, Write};
use std::process::{Child, ChildStdin, Command, Stdio};
use std::sync::mpsc::{channel, Receiver, RecvTimeoutError};
use std::time::Duration;

pub struct Program {
    command: Vec<String>,
    running: Option<Running>,
}

struct Running {
    child: Child,
    input: ChildStdin,
    /// The lines that the program writes, until it ends.
    answers: Receiver<String>,
}

/// How long a program may take for an answer.
const PATIENCE: Duration = Duration::from_secs(20);

/// The answers of a program that ends instead of giving one, and of one that takes too long.
pub const ENDED: &str = "ended";
pub const LATE: &str = "late";

impl Program {
    /// A program by its command line, whose words are separated by blanks.
    pub fn new(command: &str) -> Program {
        let command = command
            .split_ascii_whitespace()
            .map(str::to_string)
            .collect();
        Program {
            command,
            running: None,
        }
    }

    fn start(&mut self) {
        if self.running.is_some() {
            return;
        }
        let started = Command::new(&self.command[0])
            .args(&self.command[1..])
            .stdin(Stdio::piped())
            .stdout(Stdio::piped())
            .spawn();
        let mut child = match started {
            Ok(child) => child,
            Err(error) => {
                eprintln!("{} does not start: {}", self.command[0], error);
                std::process::exit(2);
            }
        };
        let input = child.stdin.take().expect("standard input is a pipe");
        let output = BufReader::new(child.stdout.take().expect("standard output is a pipe"));
        let (sender, answers) = channel();
        std::thread::spawn(move || {
            for line in output.lines() {
                let sent = line.map(|line| sender.send(line));
                if !matches!(sent, Ok(Ok(()))) {
                    return;
                }
            }
        });
        self.running = Some(Running {
            child,
            input,
            answers,
        });
    }

    /// Sends a line. Whether it arrived shows when the answer is read.
    fn send(&mut self, line: &str) {
        self.start();
        if let Some(Running { input, .. }) = &mut self.running {
            let sent = input
                .write_all(line.as_bytes())
                .and_then(|()| input.write_all(b"\n"));
            let _ = sent.and_then(|()| input.flush());
        }
    }

    fn receive(&mut self) -> String {
        let received = match &self.running {
            Some(running) => running.answers.recv_timeout(PATIENCE),
            None => Err(RecvTimeoutError::Disconnected),
        };
        match received {
            Ok(answer) => answer,
            Err(error) => {
                self.stop();
                let late = error == RecvTimeoutError::Timeout;
                if late {
                    LATE.to_string()
                } else {
                    ENDED.to_string()
                }
            }
        }
    }

    pub fn ask(&mut self, request: &Request) -> String {
        self.send(&request.line());
        self.receive()
    }

    fn stop(&mut self) {
        if let Some(mut running) = self.running.take() {
            let _ = running.child.kill();
            let _ = running.child.wait();
        }
    }
}

impl Drop for Program {
    fn drop(&mut self) {
        self.stop();
    }
}

/// The answers of two programs, which work at the same time.
pub fn ask_both(one: &mut Program, other: &mut Program, request: &Request) -> (String, String) {
    let line = request.line();
    one.send(&line);
    other.send(&line);
    (one.receive(), other.receive())
}
