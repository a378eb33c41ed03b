//! One call of one entry, made to the library and to `plain` alike, and compared.

use crate::counts::Counts;
use crate::library::Library;
use cases::{Answer, Entries, PlainEntries};
use std::fmt::Debug;

#[derive(Clone, Copy, Debug, PartialEq, Eq)]
pub enum Entry {
    Read,
    Run,
    Check,
    Find,
    Level,
}

impl Entry {
    pub fn name(self) -> &'static str {
        match self {
            Entry::Read => "read",
            Entry::Run => "run",
            Entry::Check => "check",
            Entry::Find => "find",
            Entry::Level => "level",
        }
    }
}

/// For the entries that write nothing but their answer.
const NO_MEMORY: &[u8] = &[];

/// What one run asks, its work space aside.
#[derive(Clone, Copy, Debug)]
pub struct Question<'a> {
    pub book: &'a [u8],
    pub procedure: u64,
    pub inputs: &'a [u32],
    pub budget: u64,
}

/// Both implementations, the counts, and the name of the case that is being tried.
pub struct Trial<'a> {
    pub library: &'a mut Library,
    pub counts: &'a mut Counts,
    pub seed: u64,
    pub case: u64,
}

impl Trial<'_> {
    pub fn read(&mut self, book: &[u8]) -> Answer {
        let ours = self.library.read(book);
        let plain = PlainEntries.read(book);
        self.compare(Entry::Read, ours, plain, NO_MEMORY, NO_MEMORY, &|| show_book(book));
        ours
    }

    pub fn run(&mut self, question: Question, work: &[u32]) -> Answer {
        let Question { book, procedure, inputs, budget } = question;
        let (mut our_work, mut plain_work) = (work.to_vec(), work.to_vec());
        let ours = self.library.run(book, procedure, inputs, budget, &mut our_work);
        let plain = PlainEntries.run(book, procedure, inputs, budget, &mut plain_work);
        self.compare(Entry::Run, ours, plain, &our_work, &plain_work, &|| {
            show_book(book);
            println!("  procedure {procedure}, inputs {inputs:?}, budget {budget}");
            println!("  work space of {} cells: {work:?}", work.len());
        });
        ours
    }

    pub fn check(&mut self, book: &[u8], summary: &[u8]) -> Answer {
        let ours = self.library.check(book, summary);
        let plain = PlainEntries.check(book, summary);
        self.compare(Entry::Check, ours, plain, NO_MEMORY, NO_MEMORY, &|| {
            show_book(book);
            show_bytes("summary", summary);
        });
        ours
    }

    /// Answers with the buffer as the library left it.
    pub fn find(&mut self, book: &[u8], buffer: &[u8]) -> (Answer, Vec<u8>) {
        let (mut our_buffer, mut plain_buffer) = (buffer.to_vec(), buffer.to_vec());
        let ours = self.library.find(book, &mut our_buffer);
        let plain = PlainEntries.find(book, &mut plain_buffer);
        self.compare(Entry::Find, ours, plain, &our_buffer, &plain_buffer, &|| {
            show_book(book);
            show_bytes("buffer", buffer);
        });
        (ours, our_buffer)
    }

    pub fn level(
        &mut self,
        book: &[u8],
        table: &[u8],
        procedure: u64,
        levels: &[u8],
        summary: &[u8],
    ) -> Answer {
        let ours = self.library.level(book, table, procedure, levels, summary);
        let plain = PlainEntries.level(book, table, procedure, levels, summary);
        self.compare(Entry::Level, ours, plain, NO_MEMORY, NO_MEMORY, &|| {
            show_book(book);
            show_bytes("table", table);
            println!("  procedure {procedure}, levels {levels:?}");
            show_bytes("summary", summary);
        });
        ours
    }

    /// Tells of a property that does not hold, whatever the implementations agree on.
    pub fn demand(&mut self, holds: bool, what: &str, show: &dyn Fn()) {
        if !holds {
            self.head(what);
            show();
        }
    }

    fn compare<T: PartialEq + Debug>(
        &mut self,
        entry: Entry,
        ours: Answer,
        plain: Answer,
        our_memory: &[T],
        plain_memory: &[T],
        show: &dyn Fn(),
    ) {
        self.counts.count(entry, ours);
        let trespass = self.library.trespass();
        if ours == plain && our_memory == plain_memory && trespass.is_none() {
            return;
        }
        self.head(&format!("entry {}", entry.name()));
        show();
        println!("  library: refusal {}, fields {:?}", ours.refusal, ours.fields);
        println!("  plain:   refusal {}, fields {:?}", plain.refusal, plain.fields);
        if let Some(what) = trespass {
            println!("  {what}");
        }
        let both = our_memory.iter().zip(plain_memory);
        if let Some((place, (our, plain))) = both.enumerate().find(|(_, (our, plain))| our != plain)
        {
            println!("  lent memory at {place}: library {our:?}, plain {plain:?}");
        }
    }

    fn head(&mut self, what: &str) {
        self.counts.differences += 1;
        println!("\ndifference: seed {}, case {}, {what}", self.seed, self.case);
        println!("  again: differential --seed {} --case {}", self.seed, self.case);
    }
}

pub fn show_book(book: &[u8]) {
    show_bytes("book", book);
}

pub fn show_bytes(name: &str, bytes: &[u8]) {
    let hex: String = bytes.iter().map(|byte| format!("{byte:02X}")).collect();
    println!("  {name} of {} bytes: {hex}", bytes.len());
}
