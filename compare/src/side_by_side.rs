//! The library and the oracle side by side: hands requests to both, holds the one to the other,
//! counts, and shows the smallest input of each call that differs.

use crate::pipe::Pipe;
use crate::random::Random;
use std::io;
use std::time::{Duration, Instant, SystemTime, UNIX_EPOCH};

/// A batch ends with so many requests or bytes.
const BATCH: usize = 4096;
const BATCH_BYTES: usize = 4 << 20;

/// So often the library's program may end under a call before the comparison stops.
const ENDINGS: u64 = 50;

/// The numbers under which answers are counted: those of refusals and verdicts.
const KINDS: usize = 36;

/// Where requests go.
pub type Sink<'a, R> = &'a mut dyn FnMut(R);

/// One call with its arguments, as both sides are asked it.
pub trait Asked: Clone {
    /// All that the call has to say.
    type Wanted;

    /// What the counts behind a call's line are: that of number 0, then those of the others.
    const COUNTED: &'static str;

    /// The calls by their numbers, with the names of the header without `tishkolan_`.
    fn calls() -> Vec<(u8, &'static str)>;

    /// The number of its call.
    fn number(&self) -> u8;

    /// Puts it behind the requests of a batch.
    fn send(&self, batch: &mut Vec<u8>);

    /// What the oracle says.
    fn wanted(&self) -> Self::Wanted;

    /// The number under which it is counted, below KINDS: a refusal's, or 0 where the call answers;
    /// a verdict or a choice.
    fn counted(wanted: &Self::Wanted) -> u32;

    /// Kinds of inputs that are counted apart, since their numbers do not tell them from each other.
    /// A comparison in which one of them never came compared too little.
    fn kinds() -> &'static [&'static str] {
        &[]
    }

    /// The place of its kind among those, where it has one.
    fn kind(&self, _wanted: &Self::Wanted) -> Option<usize> {
        None
    }

    /// Takes what the library said off the front, and says what is wrong with it.
    fn judge(&self, wanted: &Self::Wanted, said: &mut &[u8]) -> Vec<String>;

    /// How far the input is from nothing: of two that differ, the smaller is shown.
    fn size(&self) -> u128;

    /// The input in words.
    fn words(&self) -> String;
}

/// What was found for one call.
struct Found<R> {
    compared: u64,
    differences: u64,
    /// How often an answer of each number was due.
    due: [u64; KINDS],
    smallest: Option<(R, String)>,
}

struct Comparison<R: Asked> {
    program: &'static str,
    command: Vec<String>,
    pipe: Pipe,
    waiting: Vec<R>,
    batch: Vec<u8>,
    found: Vec<Found<R>>,
    /// How often each kind came.
    kinds: Vec<u64>,
    endings: u64,
}

impl<R: Asked> Comparison<R> {
    fn add(&mut self, request: R) {
        request.send(&mut self.batch);
        self.waiting.push(request);
        if self.waiting.len() >= BATCH || self.batch.len() >= BATCH_BYTES {
            self.flush();
        }
    }

    fn flush(&mut self) {
        let requests = std::mem::take(&mut self.waiting);
        let batch = std::mem::take(&mut self.batch);
        if requests.is_empty() {
            return;
        }
        // The oracle works while the library does.
        let asked = self.pipe.ask(&batch);
        let wanted: Vec<R::Wanted> = requests.iter().map(R::wanted).collect();
        match asked.and_then(|()| self.pipe.hear()) {
            Ok(said) => {
                let mut said = &said[..];
                for (request, wanted) in requests.iter().zip(&wanted) {
                    self.judge(request, wanted, &mut said);
                }
            }
            Err(_) => self.one_by_one(&requests, &wanted),
        }
    }

    fn ask_one(&mut self, request: &R) -> io::Result<Vec<u8>> {
        let mut batch = Vec::new();
        request.send(&mut batch);
        self.pipe.ask(&batch)?;
        self.pipe.hear()
    }

    /// The library's program ended within a batch: find the call that ends it.
    fn one_by_one(&mut self, requests: &[R], wanted: &[R::Wanted]) {
        for (request, wanted) in requests.iter().zip(wanted) {
            let said = self.ask_one(request).or_else(|_| {
                self.restart();
                self.ask_one(request)
            });
            match said {
                Ok(said) => self.judge(request, wanted, &mut &said[..]),
                Err(_) => {
                    self.restart();
                    self.differ(request, "the library's program ended".to_string());
                    self.endings += 1;
                    if self.endings == ENDINGS {
                        self.report();
                        println!("the library's program ended {ENDINGS} times: no more");
                        std::process::exit(1);
                    }
                }
            }
        }
    }

    fn restart(&mut self) {
        match Pipe::start(&self.command) {
            Ok(pipe) => std::mem::replace(&mut self.pipe, pipe).end(),
            Err(error) => fail(
                self.program,
                &format!("{}: {error}", self.command.join(" ")),
            ),
        }
    }

    fn judge(&mut self, request: &R, wanted: &R::Wanted, said: &mut &[u8]) {
        let wrong = request.judge(wanted, said);
        let found = &mut self.found[usize::from(request.number())];
        found.compared += 1;
        found.due[R::counted(wanted) as usize] += 1;
        if let Some(kind) = request.kind(wanted) {
            self.kinds[kind] += 1;
        }
        if !wrong.is_empty() {
            self.differ(request, wrong.join("; "));
        }
    }

    fn differ(&mut self, request: &R, wrong: String) {
        let found = &mut self.found[usize::from(request.number())];
        found.differences += 1;
        let smaller = match &found.smallest {
            None => true,
            Some((smallest, _)) => request.size() < smallest.size(),
        };
        if smaller {
            found.smallest = Some((request.clone(), wrong));
        }
    }

    /// Prints what was found; whether nothing differs.
    fn report(&self) -> bool {
        println!(
            "{:28} {:>10} {:>11}   {}",
            "call",
            "compared",
            "differences",
            R::COUNTED
        );
        let mut total = Found::<R>::none();
        for (number, name) in R::calls() {
            let found = &self.found[usize::from(number)];
            found.print(name);
            if let Some((request, wrong)) = &found.smallest {
                println!("    smallest: {}", request.words());
                println!("    {wrong}");
            }
            total.compared += found.compared;
            total.differences += found.differences;
            for (sum, due) in total.due.iter_mut().zip(found.due) {
                *sum += due;
            }
        }
        total.print("all");
        for (name, came) in R::kinds().iter().zip(&self.kinds) {
            println!("{name:28} {came:>10}");
        }
        total.differences == 0
    }

    /// The kinds that never came.
    fn missing(&self) -> Vec<&'static str> {
        let kinds = R::kinds().iter().zip(&self.kinds);
        kinds
            .filter(|(_, came)| **came == 0)
            .map(|(name, _)| *name)
            .collect()
    }
}

impl<R> Found<R> {
    fn none() -> Found<R> {
        Found {
            compared: 0,
            differences: 0,
            due: [0; KINDS],
            smallest: None,
        }
    }

    /// One line: the counts, then how many answers of each number were due.
    fn print(&self, name: &str) {
        let mut due = self.due[0].to_string();
        for (number, count) in self.due.iter().enumerate().skip(1) {
            if *count > 0 {
                due += &format!(", {number}: {count}");
            }
        }
        println!(
            "{name:28} {:>10} {:>11}   {due}",
            self.compared, self.differences
        );
    }
}

fn fail(program: &str, text: &str) -> ! {
    eprintln!("{program}: {text}");
    std::process::exit(2)
}

/// A whole program: `program [--seconds N] [--seed S] [--library COMMAND...]`. `linked` is the
/// program that it asks unless COMMAND is given; `first` are the inputs that always come,
/// `round` some random ones, which come for N seconds (5 unless given).
pub fn run<R: Asked>(
    program: &'static str,
    linked: &str,
    first: impl FnOnce(Sink<R>),
    mut round: impl FnMut(&mut Random, Sink<R>),
) -> ! {
    let mut seconds = 5;
    let mut seed = SystemTime::now()
        .duration_since(UNIX_EPOCH)
        .map_or(0, |time| time.as_nanos() as u64);
    let mut command = Vec::new();
    let mut words = std::env::args().skip(1);
    while let Some(word) = words.next() {
        let mut number = || match words.next().and_then(|word| word.parse().ok()) {
            Some(number) => number,
            None => fail(program, &format!("{word} wants a number")),
        };
        match word.as_str() {
            "--seconds" => seconds = number(),
            "--seed" => seed = number(),
            "--library" => command = words.by_ref().collect(),
            _ => fail(
                program,
                &format!("usage: {program} [--seconds N] [--seed S] [--library COMMAND...]"),
            ),
        }
    }
    if command.is_empty() {
        if !std::path::Path::new(linked).is_file() {
            fail(
                program,
                &format!("there is no {linked}; tests/run builds it"),
            );
        }
        command.push(linked.to_string());
    }
    println!("seed {seed}");

    let begin = Instant::now();
    let pipe = match Pipe::start(&command) {
        Ok(pipe) => pipe,
        Err(error) => fail(program, &format!("{}: {error}", command.join(" "))),
    };
    let last = R::calls().iter().map(|&(number, _)| number).max().unwrap();
    let mut comparison = Comparison {
        program,
        command,
        pipe,
        waiting: Vec::new(),
        batch: Vec::new(),
        found: (0..=last).map(|_| Found::none()).collect(),
        kinds: vec![0; R::kinds().len()],
        endings: 0,
    };

    first(&mut |request| comparison.add(request));
    comparison.flush();
    println!(
        "limits and small inputs: {:.1} s",
        begin.elapsed().as_secs_f64()
    );
    let begin = Instant::now();
    let mut random = Random::new(seed);
    while begin.elapsed() < Duration::from_secs(seconds) {
        round(&mut random, &mut |request| comparison.add(request));
    }
    comparison.flush();

    let same = comparison.report();
    let missing = comparison.missing();
    comparison.pipe.end();
    if same && !missing.is_empty() {
        fail(program, &format!("never came: {}", missing.join("; ")));
    }
    std::process::exit(if same { 0 } else { 1 });
}
