//! Runs another program with pipes: the requests of a batch go to its
//! standard input, its answers come from its standard output.
//!
//! One process serves one batch and gets the end of its input after it, so
//! that it may hold its answers back until then. Writing and reading happen
//! in threads of their own: neither side can wait for the other forever.

use std::io::{self, Read, Write};
use std::path::PathBuf;
use std::process::{Child, Command, Stdio};
use std::sync::mpsc::{self, Receiver};
use std::thread;
use std::time::{Duration, Instant};

use crate::answer::Answer;
use crate::frames::{Reply, Request, ANSWER_HEAD, MALFORMED};

/// How long a batch may take before the program counts as stuck.
const PATIENCE: Duration = Duration::from_secs(300);
/// How long a program may take to end once its output has ended.
const FAREWELL: Duration = Duration::from_secs(20);

/// A program that answers frames.
pub struct Program {
    pub path: PathBuf,
    pub arguments: Vec<String>,
}

/// A program at work on one input.
pub struct Running {
    child: Child,
    answers: Receiver<io::Result<Vec<u8>>>,
}

impl Program {
    /// Starts the program on an input; at most `most` bytes of its output
    /// are kept, so that a program that never stops cannot fill the memory.
    pub fn start(&self, input: Vec<u8>, most: usize) -> Result<Running, String> {
        let mut child = Command::new(&self.path)
            .args(&self.arguments)
            .stdin(Stdio::piped())
            .stdout(Stdio::piped())
            .spawn()
            .map_err(|error| format!("cannot start {}: {error}", self.path.display()))?;
        let mut to = child.stdin.take().ok_or("no pipe to the program")?;
        let from = child.stdout.take().ok_or("no pipe from the program")?;

        // A program that ends early closes the pipe; its answers tell why.
        thread::spawn(move || to.write_all(&input));
        let (sender, answers) = mpsc::channel();
        thread::spawn(move || {
            let mut bytes = Vec::new();
            let result = from.take(most as u64).read_to_end(&mut bytes);
            let _ = sender.send(result.map(|_| bytes));
        });
        Ok(Running { child, answers })
    }

    /// Starts the program on a batch of requests.
    pub fn ask(&self, requests: &[&Request]) -> Result<Running, String> {
        let frames: Vec<Vec<u8>> = requests.iter().map(|request| request.to_bytes()).collect();
        let output: usize = requests.iter().map(|r| ANSWER_HEAD + r.output_bytes()).sum();
        // A little more than the answers, to notice a word too many.
        self.start(frames.concat(), output + 100)
    }
}

impl Running {
    /// The whole output of the program, once it has ended.
    pub fn finish(mut self) -> Result<Vec<u8>, String> {
        let received = self.answers.recv_timeout(PATIENCE);
        let ended = received.is_ok() && self.ends();
        if !ended {
            let _ = self.child.kill();
            let _ = self.child.wait();
        }
        match received {
            Ok(Ok(bytes)) if ended => Ok(bytes),
            Ok(Ok(_)) => Err("the program closes its output, or says too much, and goes on".into()),
            Ok(Err(error)) => Err(format!("cannot read the program's answers: {error}")),
            Err(_) => Err(format!("no end of answers within {} s", PATIENCE.as_secs())),
        }
    }

    /// Whether the program ends soon after its output has.
    fn ends(&mut self) -> bool {
        let started = Instant::now();
        while started.elapsed() < FAREWELL {
            match self.child.try_wait() {
                Ok(None) => thread::sleep(Duration::from_millis(1)),
                Ok(Some(_)) => return true,
                Err(_) => return false,
            }
        }
        false
    }
}

/// Splits a program's output into the replies to a batch. What is missing is
/// nothing; bytes after the last reply are an error.
pub fn split(requests: &[&Request], bytes: &[u8]) -> Result<Vec<Option<Reply>>, String> {
    let mut rest = bytes;
    let mut replies = Vec::new();
    for request in requests {
        let reply = first_reply(rest, request.output_bytes());
        if let Some(reply) = &reply {
            rest = &rest[ANSWER_HEAD + reply.output.len()..];
        }
        replies.push(reply);
    }
    let whole = replies.iter().all(Option::is_some);
    if whole && !rest.is_empty() {
        return Err(format!("{} bytes or more after the last answer", rest.len()));
    }
    Ok(replies)
}

/// The reply at the start of the bytes, whose output has a known length; a
/// malformed request's answer carries no output.
fn first_reply(bytes: &[u8], output: usize) -> Option<Reply> {
    let answer = Answer::from_bytes(bytes.get(..ANSWER_HEAD)?);
    let output = if answer == MALFORMED { 0 } else { output };
    let output = bytes[ANSWER_HEAD..].get(..output)?.to_vec();
    Some(Reply { answer, output })
}
