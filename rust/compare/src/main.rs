//! Compares the archive of the proved book, by its raw exports and through the safe crate's own types, with the reference:
//! answers, figures and every byte.
//!
//!     compare [ROUNDS [SEED]]
//!
//! The same rounds and seed give the same cases. A difference prints the smallest case found and ends with 1.

use compare::calls::Style;
use compare::case::{Ask, Case, Outcome};
use compare::counts::Counts;
use compare::random::Random;
use compare::{books, files, show, shrink, tables};
use reference::file::MAX_FILE;
use reference::layout::BOOK;
use std::process::exit;
use std::time::Instant;

const ROUNDS: u64 = 2_000;
const SEED: u64 = 1;

struct Comparison {
    random: Random,
    counts: Counts,
    /// Books that have come about by calls, each with the style of its calls.
    histories: Vec<(Style, Vec<u8>)>,
}

fn main() {
    let mut arguments = std::env::args().skip(1);
    let mut number = |otherwise| match arguments.next().map(|argument| argument.parse()) {
        None => otherwise,
        Some(Ok(number)) => number,
        Some(Err(_)) => {
            eprintln!("compare [ROUNDS [SEED]], both whole numbers");
            exit(2);
        }
    };
    let (rounds, seed) = (number(ROUNDS), number(SEED));
    let begun = Instant::now();
    let mut comparison =
        Comparison { random: Random::new(seed), counts: Counts::default(), histories: Vec::new() };
    comparison.fixed();
    for round in 0..rounds {
        comparison.round(round);
    }
    comparison.long_files(rounds / 250 + 1);
    comparison.counts.print();
    let seconds = begun.elapsed().as_secs_f64();
    println!(
        "{} cases, {rounds} rounds, seed {seed}, {seconds:.0} seconds: no difference",
        comparison.counts.cases()
    );
}

impl Comparison {
    /// Compares one case; what both gave is handed back.
    fn compare(&mut self, kind: &'static str, book: &[u8], ask: Ask) -> Outcome {
        let case = Case { book: book.to_vec(), ask };
        let same = match case.outcome() {
            Ok(same) => same,
            Err((archive, reference)) => {
                self.counts.print();
                println!("DIFFERENCE in {kind}; the smallest case found:");
                let smallest = shrink::shrink(case);
                let (archive, reference) = smallest.difference().unwrap_or((archive, reference));
                println!("{}", show::difference(&smallest, &archive, &reference));
                exit(1);
            }
        };
        self.counts.add(kind, case.ask.name(), same.number);
        self.counts.add_effect(&case, &same);
        same
    }

    /// Cases that every run has.
    fn fixed(&mut self) {
        for file in [&[][..], &[0], &[2], &[1], &[1, 0], &[1, 0, 1, 4], &[1, 0, 0], &[255; 40]] {
            self.whole_file("odd file", file);
            for place in [0, 1, 2, 3, 4, 5, 40, 41, u32::MAX] {
                let ask = Ask::Record { file: file.to_vec(), place };
                self.compare("odd file", &vec![0; BOOK], ask);
            }
        }
        self.vectors();
        self.each_place_of_a_file();
        self.each_byte_of_a_book();
    }

    /// The call files of `tests/vectors`.
    fn vectors(&mut self) {
        let folder = concat!(env!("CARGO_MANIFEST_DIR"), "/../../tests/vectors");
        let files = std::fs::read_dir(folder).into_iter().flatten().flatten().map(|entry| entry.path());
        let mut files: Vec<_> = files.filter(|path| path.extension().is_some_and(|e| e == "bin")).collect();
        files.sort();
        for file in files.iter().filter_map(|path| std::fs::read(path).ok()) {
            self.whole_file("tests/vectors", &file);
        }
    }

    /// A file with every kind of record, one byte changed, taken out or put in at each place.
    fn each_place_of_a_file(&mut self) {
        let mut file = files::readable(&mut self.random, 400);
        for kind in 1..8 {
            let lengths = [0, 14, 14, 3, 1, 11, 11, 2];
            let fields = vec![1; lengths[kind] - 1];
            file.extend(files::record(kind as u8, &[&fields]));
        }
        for place in 0..file.len() {
            let mut changed = file.clone();
            changed[place] = changed[place].wrapping_add(self.random.byte().max(1));
            let mut shorter = file.clone();
            shorter.remove(place);
            let mut longer = file.clone();
            longer.insert(place, self.random.byte());
            for damaged in [changed, shorter, longer, file[..place].to_vec()] {
                self.whole_file("damaged at each place", &damaged);
            }
        }
    }

    /// Books with each byte changed in turn, and a call on each.
    fn each_byte_of_a_book(&mut self) {
        let book = books::sound_of(&mut self.random, 4, 60);
        let mut style = books::style(&mut self.random, &book);
        let mut damaged = book.clone();
        for place in 0..BOOK {
            damaged[place] ^= self.random.byte().max(1);
            let ask = match self.random.below(8) {
                0 => style.call(&mut self.random),
                1 | 2 => Ask::Withdraw(0, 0, 1),
                _ => Ask::Sound,
            };
            self.compare("book, each byte", &damaged, ask);
            damaged[place] = book[place];
        }
    }

    fn round(&mut self, round: u64) {
        self.short_file();
        if round.is_multiple_of(50) {
            let file = files::brim(&mut self.random);
            let book = self.whole_file("full tables", &file);
            self.histories.push((Style::new(&mut self.random), book));
        }
        if round.is_multiple_of(10) {
            let style = Style::new(&mut self.random);
            let codes = style.codes(&mut self.random).to_vec();
            let room = self.random.bytes(BOOK);
            let created = self.compare("history", &room, Ask::Create(codes));
            self.histories.push((style, created.book));
            let spare = self.histories.len().saturating_sub(12);
            self.histories.drain(..spare);
        }
        self.history(20);
        self.made_up_book();
        self.creations();
        for _ in 0..6 {
            let ask = tables::price(&mut self.random);
            self.compare("tables", &[], ask);
            let ask = tables::line(&mut self.random);
            self.compare("lines", &[], ask);
        }
    }

    /// Calls that follow each other on a book.
    fn history(&mut self, calls: usize) {
        let at = self.random.index(self.histories.len());
        let (mut style, mut book) = self.histories.swap_remove(at);
        for _ in 0..calls {
            let ask = style.call(&mut self.random);
            book = self.compare("history", &book, ask).book;
        }
        let account = style.account(&mut self.random);
        let ask = tables::marks(&mut self.random, account);
        self.compare("history", &book, ask);
        let damaged = books::damaged(&mut self.random, &book);
        let ask = style.call(&mut self.random);
        self.compare("damaged history", &damaged, ask);
        self.histories.push((style, book));
    }

    /// Calls on a made-up sound book, and on the same book damaged.
    fn made_up_book(&mut self) {
        let book = books::sound(&mut self.random);
        let mut style = books::style(&mut self.random, &book);
        for security in [0, self.random.below(32) as u32] {
            self.compare("made-up book", &book, Ask::Run(security));
        }
        self.compare("made-up book", &book, Ask::Roll);
        for _ in 0..4 {
            let ask = style.call(&mut self.random);
            self.compare("made-up book", &book, ask);
            let account = self.random.pick(&[0, 1, 2, 3, 63, 64]);
            let ask = tables::marks(&mut self.random, account);
            self.compare("made-up book", &book, ask);
        }
        let (at_the_limit, ask) = books::at_the_mark_limit(&mut self.random);
        self.compare("marks at the limit", &at_the_limit, ask);
        for _ in 0..8 {
            let damaged = books::damaged(&mut self.random, &book);
            let ask = match self.random.below(4) {
                0 => tables::marks(&mut self.random, 0),
                1 => self.any_record(),
                _ => style.call(&mut self.random),
            };
            self.compare("damaged book", &damaged, ask);
        }
    }

    /// Some record of some file, at a place where it begins or at another.
    fn any_record(&mut self) -> Ask {
        let random = &mut self.random;
        let mut file = files::readable(random, 200);
        let places = files::places(&file);
        let place = match random.below(3) {
            0 => random.index(file.len() + 2),
            _ => random.pick(&places),
        };
        if random.once_in(10) {
            file.resize(random.pick(&[MAX_FILE, MAX_FILE + 1]), 0);
        }
        Ask::Record { file, place: place as u32 }
    }

    fn creations(&mut self) {
        let random = &mut self.random;
        let length = random.pick(&[BOOK, BOOK, BOOK, BOOK - 1, BOOK + 1, 0]);
        let room = random.bytes(length);
        let length = random.pick(&[32, 32, 32, 31, 33, 0]);
        let mut codes: Vec<u8> = (0..length).map(|_| random.pick(&[0, 1, 2, 3, 255])).collect();
        if let (true, Some(code)) = (random.once_in(3), codes.last_mut()) {
            *code = random.byte();
        }
        self.compare("creation", &room, Ask::Create(codes));
    }

    fn short_file(&mut self) {
        let size = self.random.pick(&[36, 100, 300, 900]);
        let file = files::readable(&mut self.random, size);
        let book = self.whole_file("short file", &file);
        let alone = self.record_by_record(&file);
        assert!(alone == book, "record by record the file leaves another book: {file:02x?}");
        for _ in 0..6 {
            let damaged = files::damaged(&mut self.random, &file);
            self.whole_file("damaged file", &damaged);
            if self.random.once_in(4) {
                self.record_by_record(&damaged);
            }
        }
    }

    fn long_files(&mut self, count: u64) {
        for _ in 0..count {
            let file = files::longest(&mut self.random);
            self.whole_file("long file", &file);
            let mut past = file;
            past.resize(MAX_FILE + 1 + self.random.index(3), 0);
            self.whole_file("file too long", &past);
        }
    }

    /// Room for an output of `size` bytes, or of so many more.
    fn room(&mut self, size: usize) -> Vec<u8> {
        let more = self.random.pick(&[0, 0, 1, 20]);
        self.random.bytes(size + more)
    }

    /// A whole file, its answers and its sheet; the book that it leaves. Now and then with too little room too.
    fn whole_file(&mut self, kind: &'static str, file: &[u8]) -> Vec<u8> {
        let book = match self.random.below(3) {
            0 => vec![0; BOOK],
            _ => self.random.bytes(BOOK),
        };
        let mut answers = vec![0; 200_000];
        let size = reference::calls::play(&mut book.clone(), file, &mut answers).unwrap_or(0);
        let answers = self.room(size);
        let played = self.compare(kind, &book, Ask::Play { file: file.to_vec(), answers });
        let (text, _) = reference::sheet::sheet(file);
        let buffer = self.room(text.len());
        let sheet = self.compare(kind, &book, Ask::Sheet { file: file.to_vec(), buffer });
        assert!(
            played.number != 0 || played.book == sheet.book,
            "play and sheet leave other books: {file:02x?}"
        );
        if self.random.once_in(6) {
            self.too_little_room(kind, file, size, text.len());
        }
        played.book
    }

    /// Books of another length, answers and sheets that do not fit.
    fn too_little_room(&mut self, kind: &'static str, file: &[u8], answers: usize, text: usize) {
        let random = &mut self.random;
        let length = random.pick(&[BOOK, BOOK, BOOK - 1, BOOK + 1, 0]);
        let less = random.pick(&[0, 1, 1, 9, usize::MAX]);
        let book = random.bytes(length);
        let answers = random.bytes(answers.saturating_sub(less));
        let buffer = random.bytes(text.saturating_sub(less));
        self.compare(kind, &book, Ask::Play { file: file.to_vec(), answers });
        self.compare(kind, &book, Ask::Sheet { file: file.to_vec(), buffer });
    }

    /// Every record as a call of its own: the answers are those of the whole file.
    fn record_by_record(&mut self, file: &[u8]) -> Vec<u8> {
        let (mut book, mut place, mut joined) = (vec![0; BOOK], 1, Vec::new());
        while place != 0 {
            let ask = Ask::Record { file: file.to_vec(), place };
            let outcome = self.compare("record by record", &book, ask);
            if outcome.number != 0 || (place as usize) < file.len() {
                joined.push(outcome.number);
                joined.extend((outcome.figures[0] as u64).to_be_bytes());
            }
            place = outcome.figures[1] as u32;
            book = outcome.book;
        }
        let mut answers = vec![0; 200_000];
        let size = reference::calls::play(&mut vec![0; BOOK], file, &mut answers);
        if let Ok(size) = size {
            assert!(joined == answers[..size], "record by record the file has other answers: {file:02x?}");
        }
        book
    }
}
