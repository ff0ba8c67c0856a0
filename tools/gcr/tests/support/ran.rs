//! What came of a run.

use std::io::Write;
use std::process::{Command, Stdio};

/// What the command wrote, and how it ended.
#[derive(Debug, PartialEq, Eq)]
pub struct Ran {
    pub out: Vec<u8>,
    pub err: String,
    pub status: i32,
}

impl Ran {
    /// With this on standard input. It is written beside the reading of what comes out, so that neither waits for the
    /// other.
    pub fn of(command: &mut Command, input: &[u8]) -> Ran {
        let mut child = command.stdin(Stdio::piped()).stderr(Stdio::piped()).spawn().expect("it starts");
        let mut to = child.stdin.take().expect("a pipe");
        let output = std::thread::scope(|scope| {
            // a command that ends early leaves input unread, and that is its own affair
            scope.spawn(move || drop(to.write_all(input)));
            child.wait_with_output().expect("it ends")
        });
        let err = String::from_utf8(output.stderr).expect("messages are text");
        Ran { out: output.stdout, err, status: output.status.code().expect("it ends by itself") }
    }

    /// Standard output, which has to be text.
    pub fn text(&self) -> &str {
        std::str::from_utf8(&self.out).expect("it is text")
    }

    pub fn lines(&self) -> Vec<&str> {
        self.text().lines().collect()
    }

    /// It ended well, with nothing to say.
    #[track_caller]
    pub fn done(self) -> Ran {
        self.ends(0)
    }

    /// It ended so, with nothing to say.
    #[track_caller]
    pub fn ends(self, status: i32) -> Ran {
        assert_eq!((self.status, self.err.as_str()), (status, ""));
        self
    }

    /// It ended so with this message and wrote nothing.
    #[track_caller]
    pub fn ended(&self, status: i32, message: &str) {
        assert_eq!((self.status, self.err.as_str(), self.out.len()), (status, format!("gcr: {message}\n").as_str(), 0));
    }
}
