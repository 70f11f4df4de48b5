//! Counting calls, telling differences, and a word about the call under way when the library crashes.

use crate::rng::Rng;
use std::collections::BTreeMap;
use std::fmt::{self, Debug, Formatter};
use std::process::exit;
use std::ptr::null_mut;
use std::sync::atomic::{AtomicPtr, Ordering};

/// What the command line asks for.
#[derive(Clone, Copy)]
pub struct Run {
    pub seed: u64,
    pub factor: u64,
}

/// What a call answered, what it left in the memory it may write, and what it wrote elsewhere.
#[derive(PartialEq, Debug)]
pub struct Seen<T> {
    pub answer: u32,
    pub left: T,
    pub stray: Vec<String>,
}

impl<T> Seen<T> {
    /// The model's view: nothing is ever written elsewhere.
    pub fn expected(answer: u32, left: T) -> Seen<T> {
        Seen { answer, left, stray: vec![] }
    }
}

/// A group of comparisons, told in one line.
pub struct Group {
    name: &'static str,
    run: Run,
    calls: u64,
    answers: BTreeMap<u32, u64>,
}

impl Group {
    pub fn new(run: &Run, name: &'static str) -> Group {
        Group { name, run: *run, calls: 0, answers: BTreeMap::new() }
    }

    pub fn rng(&self, index: u64) -> Rng {
        Rng::for_call(self.run.seed, self.name, index)
    }

    /// Makes one call and compares it with the model.
    pub fn compare<T, F>(&mut self, inputs: &dyn Debug, model: Seen<T>, library: F)
    where
        T: PartialEq + Debug,
        F: FnOnce() -> Seen<T>,
    {
        let under_way = UnderWay { group: self, inputs };
        let place: *const UnderWay = &under_way;
        UNDER_WAY.store(place as *mut UnderWay as *mut UnderWay<'static>, Ordering::Relaxed);
        let library = library();
        UNDER_WAY.store(null_mut(), Ordering::Relaxed);
        if library != model {
            self.difference(inputs, &model, &library);
        }
        self.calls += 1;
        *self.answers.entry(model.answer).or_default() += 1;
    }

    fn head(&self, inputs: &dyn Debug) -> String {
        format!("group: {}\ncall: {}\nseed: {}\ninputs: {inputs:#?}", self.name, self.calls, self.run.seed)
    }

    fn difference(&self, inputs: &dyn Debug, model: &dyn Debug, library: &dyn Debug) -> ! {
        let (model, library) = (format!("{model:#?}"), format!("{library:#?}"));
        println!("DIFFERENCE\n{}\nmodel: {model}\nlibrary: {library}\nlines that differ:", self.head(inputs));
        for (m, l) in model.lines().zip(library.lines()).filter(|(m, l)| m != l) {
            println!("  model:   {}\n  library: {}", m.trim(), l.trim());
        }
        exit(1)
    }

    /// Tells the group's line. Each of these answers must have come up, or the inputs were too tame.
    pub fn end(self, answers: &[u32]) {
        let missing: Vec<_> = answers.iter().filter(|a| !self.answers.contains_key(a)).collect();
        if !missing.is_empty() {
            println!("{}: the answers {missing:?} never came up; seed {}", self.name, self.run.seed);
            exit(1);
        }
        let told: Vec<_> = self.answers.iter().map(|(answer, count)| format!("{answer}: {count}")).collect();
        println!("{}: {} calls, no difference (answers {})", self.name, self.calls, told.join(", "));
    }
}

/// The call under way, for the signal handler.
struct UnderWay<'a> {
    group: &'a Group,
    inputs: &'a dyn Debug,
}

static UNDER_WAY: AtomicPtr<UnderWay<'static>> = AtomicPtr::new(null_mut());

extern "C" {
    fn signal(number: i32, handler: extern "C" fn(i32)) -> usize;
    fn _exit(status: i32) -> !;
}

/// Makes a crash inside the library a difference like any other.
pub fn watch_for_crashes() {
    const SIGILL_ABRT_BUS_FPE_SEGV: [i32; 5] = [4, 6, 7, 8, 11];
    for number in SIGILL_ABRT_BUS_FPE_SEGV {
        // SAFETY: the handler never returns.
        unsafe { signal(number, crashed) };
    }
}

extern "C" fn crashed(number: i32) {
    // SAFETY: the pointer is set only while the value it points to lives. The library neither prints nor allocates,
    // so printing from here meets no lock held.
    match unsafe { UNDER_WAY.load(Ordering::Relaxed).as_ref() } {
        Some(call) => println!("DIFFERENCE\n{}\nlibrary: crashed with signal {number}", call.group.head(call.inputs)),
        None => println!("the oracle itself crashed with signal {number}"),
    }
    // SAFETY: ends the process.
    unsafe { _exit(1) }
}

/// Bytes, shown in hexadecimal.
#[derive(Clone, PartialEq)]
pub struct Bytes(pub Vec<u8>);

impl Debug for Bytes {
    fn fmt(&self, f: &mut Formatter) -> fmt::Result {
        const MOST: usize = 8192;
        write!(f, "{} bytes", self.0.len())?;
        for (i, line) in self.0[..self.0.len().min(MOST)].chunks(32).enumerate() {
            write!(f, "{}{:6}:", if self.0.len() > 32 { "\n" } else { "" }, i * 32)?;
            line.iter().try_for_each(|byte| write!(f, " {byte:02x}"))?;
        }
        if self.0.len() > MOST {
            write!(f, "\n and so on; the seed gives the rest")?;
        }
        Ok(())
    }
}

/// Bytes, shown as text.
#[derive(Clone, PartialEq)]
pub struct Text(pub Vec<u8>);

impl Debug for Text {
    fn fmt(&self, f: &mut Formatter) -> fmt::Result {
        write!(f, "{} bytes \"{}\"", self.0.len(), self.0.escape_ascii())
    }
}

/// A number, shown in hexadecimal.
#[derive(Clone, Copy, PartialEq)]
pub struct Hex(pub u64);

impl Debug for Hex {
    fn fmt(&self, f: &mut Formatter) -> fmt::Result {
        write!(f, "{:#x}", self.0)
    }
}
