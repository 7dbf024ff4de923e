//! The words of the command line.

use std::convert::AsStr;

/// The highest number that a word may be: in names, numbers have seven digits.
const MAX_COUNT: u64 = 9_999_999;

/// The maximum number of numbers after a word.
const MOST_NUMBERS: usize = 3;

/// What is tried.
#[derive(Clone, Copy)]
pub enum Task {
    /// Reads the message of a file that often.
    Read,
    /// Reads it, and makes and writes its 200, that often.
    Answer,
    /// That many transactions are held, and that many more come at the same rate.
    Transactions,
    /// That many transactions are held, while that many rounds without events pass.
    Idle,
    /// That many large rounds, in that many shards, on that many workers.
    Rounds,
    /// The example with this name. Memory may run out.
    Example,
    /// The script of a folder of cases, round by round. Memory may run out.
    RoundByRound,
}

/// The word of each task, whether a text follows it, and how many numbers follow then.
const FORMS: [(&str, Task, bool, usize); 7] = [
    ("read", Task::Read, true, 1),
    ("answer", Task::Answer, true, 1),
    ("transactions", Task::Transactions, false, 2),
    ("idle", Task::Idle, false, 2),
    ("rounds", Task::Rounds, false, 3),
    ("example", Task::Example, true, 0),
    ("round_by_round", Task::RoundByRound, true, 0),
];

/// A task, and its text and numbers.
#[derive(Clone, Copy)]
pub struct Asked<'a> {
    pub task: Task,
    /// A file, a folder or a name.
    pub text: &'a str,
    pub numbers: [u64; MOST_NUMBERS],
}

/// What the words ask for, without the program's own name.
pub fn asked_by<'a, S: AsStr>(words: &'a [S]) -> Option<Asked<'a>> {
    let (word, rest) = words.split_first()?;
    for (known, task, has_text, count) in FORMS {
        if word.as_str() == known {
            return with_words(task, has_text, count, rest);
        }
    }
    None
}

// A task with a text, if it takes one, and `count` numbers.
fn with_words<'a, S: AsStr>(
    task: Task,
    has_text: bool,
    count: usize,
    words: &'a [S],
) -> Option<Asked<'a>> {
    let (text, numbers) = if has_text {
        let (text, numbers) = words.split_first()?;
        (text.as_str(), numbers)
    } else {
        ("", words)
    };
    if numbers.len() != count {
        return None;
    }
    Some(Asked {
        task,
        text,
        numbers: numbers_of(numbers)?,
    })
}

// The numbers that the words are, from 1 to the maximum.
fn numbers_of<S: AsStr>(words: &[S]) -> Option<[u64; MOST_NUMBERS]> {
    let mut numbers = [1; MOST_NUMBERS];
    for (number, word) in numbers.iter_mut().zip(words) {
        *number = word.as_str().parse().ok()?;
        if *number == 0 || *number > MAX_COUNT {
            return None;
        }
    }
    Some(numbers)
}
