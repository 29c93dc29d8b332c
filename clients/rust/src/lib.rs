//! A client of recall, the host of message programs that must survive failures, over the standard library alone.
//!
//! ```no_run
//! use recall_client::{Host, Result};
//!
//! fn act(text: &str) { println!("{text}") }
//!
//! fn main() -> Result<()> {
//!     let mut host = Host::start("recall", "flow.journal", "flow.seen")?;
//!     for missed in host.missed()? {
//!         missed.reply.outputs().for_each(act);
//!     }
//!     host.commit()?;
//!     if host.is_new() {
//!         host.open("shop", &["echo"])?;
//!     }
//!     let number = host.status("shop", 0)?.number("outside").unwrap_or(0);
//!     host.post("shop", 0, number, "charge 5")?;
//!     host.flush("shop", 0)?;
//!     host.release("shop", 0)?.iter().for_each(|text| act(text));
//!     host.commit()
//! }
//! ```
//!
//! A [`Host`] runs `recall run --journal`. How many replies were acted on stands in a file of its own, which [`Host::commit`]
//! writes. Where the program ends, it is started again, and what the journal hasn't is given again: a call doesn't notice. Where
//! this process ends, the replies behind the last commit are given again by [`Host::missed`]: so each is acted on at least once,
//! and once where the act and the commit aren't parted. One process at a time may use a journal.

use std::collections::VecDeque;
use std::ffi::OsString;
use std::fmt::{self, Display, Formatter, Write as _};
use std::fs::{self, File};
use std::io::{self, BufRead, BufReader, ErrorKind, Read, Write};
use std::path::{Path, PathBuf};
use std::process::{Child, ChildStdin, ChildStdout, Command, Stdio};
use std::thread::{self, sleep, JoinHandle};
use std::time::Duration;

/// How often in a row the program may end with an error before it wrote a reply.
const TRIES: u32 = 50;

/// The time before the next try.
const PAUSE: Duration = Duration::from_millis(100);

/// Why a call failed.
#[derive(Debug)]
pub enum Error {
    /// The step was refused, and changed nothing. `name` is the refusal's (docs/FORMATS.md lists them).
    Refused { name: String, reply: Value },
    /// The program ended with this status each time that it was started, and said this.
    Ended { status: Option<i32>, complaint: String },
    /// Replies of an earlier run come before any call: take them by [`Host::missed`].
    Missed(u64),
    /// The program wrote what is no reply.
    NoReply(String),
    /// A file, a pipe or the program's start failed.
    Io(io::Error),
}

pub type Result<T> = std::result::Result<T, Error>;

impl From<io::Error> for Error {
    fn from(error: io::Error) -> Error {
        Error::Io(error)
    }
}

impl Display for Error {
    fn fmt(&self, out: &mut Formatter<'_>) -> fmt::Result {
        match self {
            Error::Refused { name, .. } => write!(out, "refused: {name}"),
            Error::Ended { status, complaint } => match status {
                Some(status) => write!(out, "recall ended with status {status}: {}", complaint.trim()),
                None => write!(out, "recall was killed: {}", complaint.trim()),
            },
            Error::Missed(count) => write!(out, "{count} replies were missed: take them first"),
            Error::NoReply(line) => write!(out, "the program wrote what is no reply: {line:.80}"),
            Error::Io(error) => error.fmt(out),
        }
    }
}

impl std::error::Error for Error {}

/// What a line of JSON says. Numbers of replies are whole.
#[derive(Clone, Debug, PartialEq)]
pub enum Value {
    Null,
    Bool(bool),
    Number(u64),
    Text(String),
    List(Vec<Value>),
    Object(Vec<(String, Value)>),
}

impl Value {
    /// The value of a line; nothing where it is no JSON of this kind.
    pub fn parse(text: &str) -> Option<Value> {
        let mut reader = Json { rest: text.trim_matches(SPACES), depth: 0 };
        let value = reader.value()?;
        reader.rest.is_empty().then_some(value)
    }

    /// What stands under a key.
    pub fn get(&self, key: &str) -> Option<&Value> {
        match self {
            Value::Object(members) => members.iter().find(|(name, _)| name == key).map(|(_, value)| value),
            _ => None,
        }
    }

    /// The number under a key.
    pub fn number(&self, key: &str) -> Option<u64> {
        match self.get(key) {
            Some(Value::Number(number)) => Some(*number),
            _ => None,
        }
    }

    /// The text under a key.
    pub fn text(&self, key: &str) -> Option<&str> {
        match self.get(key) {
            Some(Value::Text(text)) => Some(text),
            _ => None,
        }
    }

    /// The texts that a `release` gave; none of any other reply.
    pub fn outputs(&self) -> impl Iterator<Item = &str> {
        let outputs = match self.get("outputs") {
            Some(Value::List(outputs)) => outputs.as_slice(),
            _ => &[],
        };
        outputs.iter().filter_map(|output| match output {
            Value::Text(text) => Some(text.as_str()),
            _ => None,
        })
    }
}

const SPACES: [char; 4] = [' ', '\t', '\n', '\r'];

/// How deep lists and objects may stand in one another.
const DEEPEST: u32 = 32;

/// A reader of JSON.
struct Json<'a> {
    rest: &'a str,
    depth: u32,
}

impl Json<'_> {
    fn value(&mut self) -> Option<Value> {
        match self.rest.chars().next()? {
            '{' => self.within(Json::object),
            '[' => self.within(Json::list),
            '"' => self.text().map(Value::Text),
            't' => self.word("true", Value::Bool(true)),
            'f' => self.word("false", Value::Bool(false)),
            'n' => self.word("null", Value::Null),
            _ => self.number(),
        }
    }

    fn within(&mut self, read: fn(&mut Self) -> Option<Value>) -> Option<Value> {
        self.depth += 1;
        let value = if self.depth > DEEPEST { None } else { read(self) };
        self.depth -= 1;
        value
    }

    /// Takes this character, and spaces around it, where it comes next.
    fn takes(&mut self, mark: char) -> bool {
        match self.rest.trim_start_matches(SPACES).strip_prefix(mark) {
            Some(rest) => {
                self.rest = rest.trim_start_matches(SPACES);
                true
            }
            None => false,
        }
    }

    fn word(&mut self, word: &str, value: Value) -> Option<Value> {
        self.rest = self.rest.strip_prefix(word)?;
        Some(value)
    }

    fn number(&mut self) -> Option<Value> {
        let end = self.rest.find(|c: char| !c.is_ascii_digit()).unwrap_or(self.rest.len());
        let (digits, rest) = self.rest.split_at(end);
        self.rest = rest;
        digits.parse().ok().map(Value::Number)
    }

    fn list(&mut self) -> Option<Value> {
        self.takes('[');
        let mut values = Vec::new();
        while !self.takes(']') {
            if !values.is_empty() && !self.takes(',') {
                return None;
            }
            values.push(self.value()?);
        }
        Some(Value::List(values))
    }

    fn object(&mut self) -> Option<Value> {
        self.takes('{');
        let mut members = Vec::new();
        while !self.takes('}') {
            if !members.is_empty() && !self.takes(',') {
                return None;
            }
            let name = self.text()?;
            if !self.takes(':') {
                return None;
            }
            members.push((name, self.value()?));
        }
        Some(Value::Object(members))
    }

    fn text(&mut self) -> Option<String> {
        let mut text = String::new();
        let mut chars = self.rest.strip_prefix('"')?.chars();
        loop {
            match chars.next()? {
                '"' => break,
                '\\' => text.push(escaped(&mut chars)?),
                other => text.push(other),
            }
        }
        self.rest = chars.as_str();
        Some(text)
    }
}

/// The character of an escape.
fn escaped(chars: &mut std::str::Chars<'_>) -> Option<char> {
    Some(match chars.next()? {
        'n' => '\n',
        'r' => '\r',
        't' => '\t',
        'b' => '\u{8}',
        'f' => '\u{c}',
        'u' => return unit(chars),
        other @ ('"' | '\\' | '/') => other,
        _ => return None,
    })
}

/// The character of one or two units of UTF-16.
fn unit(chars: &mut std::str::Chars<'_>) -> Option<char> {
    let first = hex(chars)?;
    if !(0xd800..0xdc00).contains(&first) {
        return char::from_u32(first);
    }
    if (chars.next()?, chars.next()?) != ('\\', 'u') {
        return None;
    }
    let second = hex(chars)?;
    if !(0xdc00..0xe000).contains(&second) {
        return None;
    }
    char::from_u32(0x10000 + ((first - 0xd800) << 10) + (second - 0xdc00))
}

fn hex(chars: &mut std::str::Chars<'_>) -> Option<u32> {
    let mut number = 0;
    for _ in 0..4 {
        number = number * 16 + chars.next()?.to_digit(16)?;
    }
    Some(number)
}

/// A text as JSON has it.
fn quoted(text: &str) -> String {
    let mut quoted = String::from("\"");
    for c in text.chars() {
        match c {
            '"' | '\\' => quoted.extend(['\\', c]),
            '\0'..='\u{1f}' => {
                let _ = write!(quoted, "\\u{:04x}", c as u32);
            }
            _ => quoted.push(c),
        }
    }
    quoted.push('"');
    quoted
}

/// A step that an earlier run gave, and its reply.
#[derive(Clone, Debug)]
pub struct Missed {
    pub step: Value,
    pub reply: Value,
}

/// The program, and what goes to it and comes from it.
struct Running {
    child: Child,
    input: ChildStdin,
    output: BufReader<ChildStdout>,
    complaint: JoinHandle<String>,
}

/// A run of `recall run` over a journal, which survives.
pub struct Host {
    words: Vec<OsString>,
    journal: PathBuf,
    seen: PathBuf,
    running: Option<Running>,
    /// How many replies were acted on, and how many of the journal's lines were read since.
    committed: u64,
    read: u64,
    /// The lines of the journal whose replies were missed.
    missed: VecDeque<Vec<u8>>,
}

impl Host {
    /// A host of this program, over this journal, that keeps in `seen` how many replies were acted on. The program is started by
    /// the first call.
    ///
    /// # Errors
    ///
    /// `Io` where a file can't be read, or `seen` has no number.
    pub fn start(program: impl Into<OsString>, journal: impl Into<PathBuf>, seen: impl Into<PathBuf>) -> Result<Host> {
        let (journal, seen) = (journal.into(), seen.into());
        let mut named = OsString::from("--journal=");
        named.push(&journal);
        let words = vec![program.into(), "run".into(), "-q".into(), named];
        let committed = count_in(&seen)?;
        let missed = lines_behind(&journal, committed)?.into();
        Ok(Host { words, journal, seen, running: None, committed, read: 0, missed })
    }

    /// The same with one more word for the program, as `--programs`.
    pub fn with_word(mut self, word: impl Into<OsString>) -> Host {
        self.words.push(word.into());
        self
    }

    /// Whether the journal has no line.
    pub fn is_new(&self) -> bool {
        self.committed + self.read == 0
    }

    /// The steps whose replies weren't committed, each with its reply, in order. They are committed by the next `commit`.
    ///
    /// # Errors
    ///
    /// Those of `ask`.
    pub fn missed(&mut self) -> Result<Vec<Missed>> {
        let lines = Vec::from(std::mem::take(&mut self.missed));
        let mut found = Vec::with_capacity(lines.len());
        for (line, reply) in lines.iter().zip(self.answers(&lines)?) {
            let step = Value::parse(&String::from_utf8_lossy(line)).unwrap_or(Value::Null);
            found.push(Missed { step, reply });
        }
        Ok(found)
    }

    /// Keeps that all replies so far were acted on: the file is written anew, synced, and takes the place of the old one.
    ///
    /// # Errors
    ///
    /// `Io` where the file can't be written: then the replies may be missed again.
    pub fn commit(&mut self) -> Result<()> {
        let count = self.committed + self.read;
        let mut name = self.seen.clone().into_os_string();
        name.push(".new");
        let mut file = File::create(&name)?;
        writeln!(file, "{count}")?;
        file.sync_all()?;
        fs::rename(&name, &self.seen)?;
        let folder = self.seen.parent().filter(|folder| !folder.as_os_str().is_empty());
        File::open(folder.unwrap_or(Path::new(".")))?.sync_all()?;
        (self.committed, self.read) = (count, 0);
        Ok(())
    }

    /// The reply to a step, a line of JSON without its line feed.
    ///
    /// # Errors
    ///
    /// `Refused` where the step was refused, `Missed` before missed replies are taken, `Ended` where the program can't be kept
    /// running, `Io` where it can't be started.
    pub fn ask(&mut self, step: &str) -> Result<Value> {
        let reply = self.ask_all(&[step])?.remove(0);
        match reply.text("no") {
            Some(name) => Err(Error::Refused { name: name.to_string(), reply }),
            None => Ok(reply),
        }
    }

    /// The replies to steps, in order, where all are sent at once. A reply that has the key `no` is a refusal, and no error here.
    ///
    /// # Errors
    ///
    /// Those of `ask`, but for `Refused`.
    pub fn ask_all(&mut self, steps: &[&str]) -> Result<Vec<Value>> {
        if !self.missed.is_empty() {
            return Err(Error::Missed(self.missed.len() as u64));
        }
        let lines: Vec<Vec<u8>> =
            steps.iter().map(|step| format!("{}\n", step.replace('\n', " ")).into_bytes()).collect();
        self.answers(&lines)
    }

    /// The replies to these lines, which are the next of the journal, whoever ends meanwhile.
    fn answers(&mut self, lines: &[Vec<u8>]) -> Result<Vec<Value>> {
        let mut replies = Vec::with_capacity(lines.len());
        let mut failures = 0;
        while replies.len() < lines.len() {
            let given = self.begin(replies.len() as u64)?;
            let before = replies.len();
            if self.talk(&lines[(given as usize).min(lines.len())..], lines.len(), &mut replies)? {
                break;
            }
            let (status, complaint) = self.end();
            failures = if replies.len() > before { 0 } else { failures + 1 };
            if failures >= TRIES {
                return Err(Error::Ended { status, complaint });
            }
            if status.is_some() {
                sleep(PAUSE);
            }
        }
        self.read += lines.len() as u64;
        Ok(replies)
    }

    /// Sees that the program runs, behind so many more replies than were read. Gives how many of the lines that come next it has.
    fn begin(&mut self, answered: u64) -> Result<u64> {
        if self.running.is_some() {
            return Ok(answered);
        }
        let behind = self.committed + self.read;
        let piped = Stdio::piped;
        let mut command = Command::new(&self.words[0]);
        command.args(&self.words[1..]).arg("--from").arg((behind + answered).to_string());
        let mut child = command.stdin(piped()).stdout(piped()).stderr(piped()).spawn()?;
        let (input, output, errors) = (child.stdin.take(), child.stdout.take(), child.stderr.take());
        let none = || io::Error::from(ErrorKind::BrokenPipe);
        let mut errors = errors.ok_or_else(none)?;
        let complaint = thread::spawn(move || {
            let mut said = Vec::new();
            let _ = errors.read_to_end(&mut said);
            String::from_utf8_lossy(&said).into_owned()
        });
        let (input, output) = (input.ok_or_else(none)?, BufReader::new(output.ok_or_else(none)?));
        self.running = Some(Running { child, input, output, complaint });
        Ok(lines_behind(&self.journal, behind)?.len() as u64)
    }

    /// Writes lines, and reads replies meanwhile up to so many. Tells whether there are as many: else the program ended.
    fn talk(&mut self, lines: &[Vec<u8>], count: usize, replies: &mut Vec<Value>) -> Result<bool> {
        let Some(Running { input, output, .. }) = &mut self.running else {
            return Ok(false);
        };
        thread::scope(|scope| {
            // A pipe that breaks is told by the reply that is missing.
            scope.spawn(move || lines.iter().try_for_each(|line| input.write_all(line)));
            while replies.len() < count {
                let mut line = String::new();
                match output.read_line(&mut line) {
                    Ok(_) if line.ends_with('\n') => replies.push(Value::parse(&line).ok_or(Error::NoReply(line))?),
                    _ => return Ok(false),
                }
            }
            Ok(true)
        })
    }

    /// Ends the program where it stands. Gives its status, unless it was killed, and what it complained of.
    fn end(&mut self) -> (Option<i32>, String) {
        let Some(Running { mut child, input, output, complaint }) = self.running.take() else {
            return (None, String::new());
        };
        drop((input, output));
        let ended = child.try_wait().ok().flatten();
        let _ = child.kill();
        let status = ended.or_else(|| child.wait().ok()).and_then(|status| status.code());
        (status, complaint.join().unwrap_or_default())
    }

    /// Opens a tenant with a unit of each of these kinds, unit 0 first.
    pub fn open(&mut self, tenant: &str, kinds: &[&str]) -> Result<Value> {
        let kinds: Vec<String> = kinds.iter().map(|kind| quoted(kind)).collect();
        self.ask(&format!(r#"{{"do":"open","tenant":{},"units":[{}]}}"#, quoted(tenant), kinds.join(",")))
    }

    /// Gives a unit a text from outside, under this number.
    pub fn post(&mut self, tenant: &str, unit: u8, number: u64, text: &str) -> Result<Value> {
        let (tenant, text) = (quoted(tenant), quoted(text));
        self.ask(&format!(r#"{{"do":"post","number":{number},"tenant":{tenant},"text":{text},"unit":{unit}}}"#))
    }

    /// Delivers a letter to the unit that it was sent to.
    pub fn deliver(&mut self, tenant: &str, letter: u64) -> Result<Value> {
        self.ask(&format!(r#"{{"do":"deliver","letter":{letter},"tenant":{}}}"#, quoted(tenant)))
    }

    /// Logs what the unit took and hasn't logged; gives how many records that were.
    pub fn flush(&mut self, tenant: &str, unit: u8) -> Result<u64> {
        Ok(self.of_unit("flush", tenant, unit)?.number("count").unwrap_or(0))
    }

    /// The outputs of the unit that can leave now, in order.
    pub fn release(&mut self, tenant: &str, unit: u8) -> Result<Vec<String>> {
        Ok(self.of_unit("release", tenant, unit)?.outputs().map(String::from).collect())
    }

    /// How the unit stands.
    pub fn status(&mut self, tenant: &str, unit: u8) -> Result<Value> {
        self.of_unit("status", tenant, unit)
    }

    /// A step of one unit: `flush`, `checkpoint`, `kill`, `restart`, `notice`, `release` or `status`.
    pub fn of_unit(&mut self, step: &str, tenant: &str, unit: u8) -> Result<Value> {
        self.ask(&format!(r#"{{"do":{},"tenant":{},"unit":{unit}}}"#, quoted(step), quoted(tenant)))
    }
}

impl Drop for Host {
    fn drop(&mut self) {
        self.end();
    }
}

/// The number that the file has, 0 where it isn't there.
fn count_in(path: &Path) -> Result<u64> {
    match fs::read_to_string(path) {
        Ok(text) => text.trim().parse().map_err(|_| io::Error::new(ErrorKind::InvalidData, "it has no number").into()),
        Err(error) if error.kind() == ErrorKind::NotFound => Ok(0),
        Err(error) => Err(error.into()),
    }
}

/// The whole lines of a journal behind so many; none where it isn't there.
fn lines_behind(journal: &Path, count: u64) -> Result<Vec<Vec<u8>>> {
    let mut reader = match File::open(journal) {
        Ok(file) => BufReader::new(file),
        Err(error) if error.kind() == ErrorKind::NotFound && count == 0 => return Ok(Vec::new()),
        Err(error) => return Err(error.into()),
    };
    let (mut behind, mut before) = (Vec::new(), 0);
    loop {
        let mut line = Vec::new();
        reader.read_until(b'\n', &mut line)?;
        if !line.ends_with(b"\n") {
            break;
        }
        if before < count {
            before += 1;
        } else {
            behind.push(line);
        }
    }
    if before < count {
        let why = format!("the journal has {before} lines, and {count} were seen");
        return Err(io::Error::new(ErrorKind::InvalidData, why).into());
    }
    Ok(behind)
}
