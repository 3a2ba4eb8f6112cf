//! How often each kind of operator file was read or written, with counts that a short file can have and with
//! larger ones, how often each exponent was read in each kind, and how often a long file met a buffer that
//! holds a short one.

use plain::file::{Kind, MAX_SHORT_EXPONENT, SHORT_BYTES};
use plain::refusal::BUFFER_TOO_SHORT;

use super::{listed, missing, numbered};
use crate::call::{Answer, Call};

const LEAST: u64 = 1000;

/// What a file is: its kind, and of a long one whether the operator is small enough for a short one.
#[derive(Clone, Copy)]
enum Class {
    Short,
    SmallInLong,
    LargeInLong,
}

const CLASSES: [(Class, &str); 3] = [
    (Class::Short, "short file"),
    (Class::SmallInLong, "long file of a small operator"),
    (Class::LargeInLong, "long file of a large operator"),
];

/// What a call does with operator files.
#[derive(Clone, Copy)]
pub enum Use {
    Reads,
    Writes,
}

impl Use {
    /// Whether a file of the class is read, or written.
    fn has(self, class: Class) -> bool {
        matches!(self, Use::Reads) || !matches!(class, Class::SmallInLong)
    }
}

/// The tally of the operator files of a call.
pub struct Files {
    classes: [u64; CLASSES.len()],
    exponents: [Vec<u64>; Kind::ALL.len()],
    short_buffers: u64,
}

impl Files {
    pub fn new() -> Files {
        Files {
            classes: [0; CLASSES.len()],
            exponents: Kind::ALL.map(|kind| vec![0; usize::from(kind.max_exponent()) + 1]),
            short_buffers: 0,
        }
    }

    /// Counts a file that was read or written, by its kind, its exponent and its count.
    pub fn add(&mut self, file: &[u8], count: u64) {
        let kind = Kind::of_length(file.len()).expect("an operator file");
        let class = match kind {
            Kind::Short => Class::Short,
            Kind::Long if count <= MAX_SHORT_EXPONENT.into() => Class::SmallInLong,
            Kind::Long => Class::LargeInLong,
        };
        self.classes[class as usize] += 1;
        self.exponents[kind as usize][usize::from(file[0])] += 1;
    }

    /// Counts a buffer that was too short, if a short file would have had room in it.
    pub fn add_buffer(&mut self, answer: Answer, room: usize) {
        let refused = answer == Answer::Refused(BUFFER_TOO_SHORT);
        self.short_buffers += u64::from(refused && room >= SHORT_BYTES);
    }

    /// Prints a line for the classes, and one for the exponents that were read in each kind, or for the
    /// buffers.
    pub fn print(&self, call: Call, used: Use) {
        let name = call.name();
        println!("files of {name}:{}", listed(self.classes(used)));
        match used {
            Use::Reads => {
                for kind in Kind::ALL {
                    let times = numbered(&self.exponents[kind as usize]);
                    println!("exponents of {} of {name}:{times}", name_of(kind));
                }
            }
            Use::Writes => {
                let times = self.short_buffers;
                println!("buffers of a short file for a long one of {name}: {times}");
            }
        }
    }

    /// What was seen too seldom.
    pub fn gaps(&self, call: Call, used: Use) -> Vec<String> {
        let name = call.name();
        let seldom = self.classes(used).filter(|&(_, times)| times < LEAST);
        let mut gaps: Vec<String> = seldom
            .map(|(class, _)| format!("{class} of {name}"))
            .collect();
        match used {
            Use::Reads => {
                for kind in Kind::ALL {
                    let what = format!("{}: exponent", name_of(kind));
                    gaps.extend(missing(&what, call, &self.exponents[kind as usize]));
                }
            }
            Use::Writes if self.short_buffers < LEAST => {
                gaps.push(format!("buffer of a short file for a long one of {name}"));
            }
            Use::Writes => {}
        }
        gaps
    }

    /// The classes that the call reads or writes, and how often each was seen.
    fn classes(&self, used: Use) -> impl Iterator<Item = (&'static str, u64)> + '_ {
        let classes = CLASSES
            .into_iter()
            .filter(move |&(class, _)| used.has(class));
        classes.map(|(class, name)| (name, self.classes[class as usize]))
    }
}

fn name_of(kind: Kind) -> &'static str {
    match kind {
        Kind::Short => "short files",
        Kind::Long => "long files",
    }
}
