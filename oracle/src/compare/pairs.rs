//! Lists to be paired: as records for a program that prints what it answers, which `crate::pairs` answers too; and one behind the other,
//! with what `crate::pairs` says of them, for a program that pairs them itself.

mod lists;

use super::families::{Family, Plan};
use super::random::Random;
use super::{count, damage, statements, Other, Wanted};
use crate::check::Full;
use crate::list::WIDTH;
use crate::modes::Mode;
use crate::numbers;
use crate::pairs::{self, Refusal, LEVELS, TOO_MANY};
use crate::records::LONGEST_RECORD;
use crate::walk::Source;
use std::io::{self, Write};
use std::sync::atomic::{AtomicU64, Ordering};

/// How many numbers are lent, by turns: about as many as the shortest lists of sixteen levels have records, and fewer.
const ROOMS: [usize; 16] = [34, 8, 40, 3, 48, 17, 33, 0, 36, 24, 35, 1, 44, 18, 32, 5];
/// Enough for each of `lists::levels`.
const AMPLE: usize = 8 * (LEVELS + 2);
/// The most whole records that a record's text holds.
const LONGEST: usize = LONGEST_RECORD / 4 / WIDTH;
/// Starting the program costs as much as some hundred lists.
const PIECE: u64 = 5_000;
/// One list in so many has numbers that make no whole records.
const RAGGED: usize = 20;

/// COUNT SEED FOLDER PROGRAM [ARG..]: about COUNT lists and a fifth more. True if the program answers as `crate::pairs` does, and every
/// outcome that a record can bring was among them.
pub fn brackets(out: &mut impl Write, args: &[String]) -> io::Result<bool> {
    let (wanted, program) = Wanted::read(args)?;
    let seen = Seen::default();
    let families = families(wanted.plan(), &seen);
    let Some(asked) = wanted.ask(out, &families, Other::Program(program))? else { return Ok(false) };
    count(out, "pair: total", asked.unlexed)?;
    seen.tell(out)
}

/// How often each outcome came.
#[derive(Default)]
struct Seen([AtomicU64; 8]);

impl Seen {
    /// The refusals, fewer levels than may be, and as many.
    const NAMES: [&'static str; 8] =
        ["NotRecords", "TooLong", "NoRoom", "TooDeep", "WrongCloser", "LeftOpen", "DEEPEST", "DEEPEST 16"];

    fn add(&self, answer: Result<usize, (Refusal, usize)>) {
        let name = match answer {
            Ok(LEVELS) => "DEEPEST 16".to_string(),
            Ok(_) => "DEEPEST".to_string(),
            Err((refusal, _)) => format!("{refusal:?}"),
        };
        let place = Self::NAMES.iter().position(|&other| other == name).expect("it has a name");
        self.0[place].fetch_add(1, Ordering::Relaxed);
    }

    /// True if all came but TooLong, for which no record's text is long enough.
    fn tell(&self, out: &mut impl Write) -> io::Result<bool> {
        let times = self.0.each_ref().map(|times| times.load(Ordering::Relaxed));
        for (name, times) in Self::NAMES.iter().zip(times) {
            writeln!(out, "{:<40} {times:>10} times", format!("outcome: {name}"))?;
        }
        let never = Self::NAMES.iter().zip(times).find(|&(&name, times)| times == 0 && name != "TooLong");
        if let Some((name, _)) = never {
            writeln!(out, "no list has the outcome {name}")?;
        }
        Ok(never.is_none())
    }
}

fn families<'a>(plan: Plan<'a>, seen: &'a Seen) -> Vec<Family<'a>> {
    let share = plan.count / 16;
    let rooms = |piece| Mode::Pair(ROOMS[piece as usize % ROOMS.len()]);
    // Room for all lists, and room for some.
    let few = |piece| Mode::Pair([7, 4][piece as usize % 2]);
    let small = small(plan.count, plan.seed);
    let (texts, title) = (small.count, small.name.clone());
    let longest = |piece| Mode::Pair([LONGEST, LONGEST - 1, LONGEST + 1, TOO_MANY][piece as usize % 4]);
    vec![
        family("nests", rooms, 15 * share, PIECE, seen, |_, r, room| nests(r, room)),
        family("lists of texts", rooms, share, PIECE, seen, move |_, r, room| of_text(plan, r, room)),
        family(&title, few, 2 * texts, texts, seen, move |index, r, _| {
            let mut tokens = Vec::new();
            (small.make)(index % texts, r, &mut tokens);
            lists::numbers(r, &tokens)
        }),
        family(
            "levels",
            |_| Mode::Pair(AMPLE),
            lists::LEVELS_COUNT,
            PIECE,
            seen,
            |index, r, _| lists::numbers(r, &lists::levels(index)),
        ),
        family("longest", longest, 64 + plan.count / 20_000, 8, seen, |index, r, _| {
            let mut numbers = long(r, LONGEST - [0, 0, 1][index as usize % 3], index);
            if index % 8 == 7 {
                numbers.resize(LONGEST_RECORD / 4, 1);
            }
            numbers
        }),
    ]
}

/// Each list is a record's text, whose offset says nothing.
fn family<'a>(
    name: &str,
    mode: fn(u64) -> Mode,
    count: u64,
    piece: u64,
    seen: &'a Seen,
    make: impl Fn(u64, &mut Random, usize) -> Vec<u32> + Sync + 'a,
) -> Family<'a> {
    Family::new(format!("pair: {name}"), mode, count, move |index, r, text| {
        let Mode::Pair(room) = mode(index / piece) else { unreachable!("lists are paired") };
        let list = make(index, r, room);
        seen.add(pairs::pair(&list, &mut vec![0; room]));
        numbers::push(text, &list);
        r.below(1 << 32)
    })
    .in_pieces_of(piece)
}

/// Every short list of brackets and another token.
fn small<'a>(count: u64, seed: u64) -> Family<'a> {
    Family::every("small", |_| Mode::Pair(0), lists::TOKENS, count / 10, seed, false)
}

fn nests(r: &mut Random, room: usize) -> Vec<u32> {
    let tokens = lists::any(r, room);
    let mut numbers = lists::numbers(r, &tokens);
    if r.once_in(RAGGED) {
        lists::ragged(r, &mut numbers);
    }
    numbers
}

/// The records that List has of a text, real SQL where there is some, or of its front, as many as there is room for.
fn of_text(plan: Plan, r: &mut Random, room: usize) -> Vec<u32> {
    let mut text = Vec::new();
    if plan.corpus.len() > 0 && r.once_in(2) {
        text.extend(plan.corpus.part(r, 200));
    } else {
        statements::any(r, &mut text);
    }
    if r.once_in(2) {
        damage::damage(r, &mut text);
    }
    let mut records = Full::of(Source::Published, &text).expect("nothing is written").records;
    if !r.once_in(4) {
        records.truncate(room);
    }
    records.concat()
}

/// How many sorts of long lists there are.
const SORTS: u64 = 6;

/// So many records, two or more, by turns: whose brackets fit; one pair around all others; an opener, or a closer too many, as the last one; a
/// level too many, as soon as it comes; one damaged anywhere.
fn long(r: &mut Random, records: usize, turn: u64) -> Vec<u32> {
    let mut tokens = match turn % SORTS {
        1 => [b"(", &lists::nest(r, records - 2, LEVELS - 1)[..], b")"].concat(),
        2 => [&lists::nest(r, records - 1, LEVELS - 1)[..], b"["].concat(),
        3 => [&lists::nest(r, records - 1, LEVELS)[..], b"]"].concat(),
        4 => lists::nest(r, records, LEVELS + 1),
        _ => lists::nest(r, records, LEVELS),
    };
    if turn % SORTS == 5 {
        lists::damage(r, &mut tokens);
        tokens.resize(records, b'a');
    }
    lists::numbers(r, &tokens)
}

// The statuses of `include/sqllex.h`.
const DONE: u32 = 104;

fn status(refusal: Refusal) -> u32 {
    match refusal {
        Refusal::NotRecords => 17,
        Refusal::TooLong => 9,
        Refusal::NoRoom => 13,
        Refusal::TooDeep => 18,
        Refusal::WrongCloser => 19,
        Refusal::LeftOpen => 20,
    }
}

/// COUNT SEED FOLDER: about COUNT lists and a tenth more. Of each the status, the deepest nesting or the refusal's index, how many numbers
/// it has and how many are lent are written, 4 bytes each, lowest first; then its numbers, and where it is accepted a partner for each record.
pub fn pairs(out: &mut impl Write, args: &[String]) -> io::Result<bool> {
    let (wanted, _) = Wanted::read(args)?;
    for index in 0..wanted.count {
        let mut r = Random::new(wanted.seed, 0, index);
        let room = ROOMS[r.below(ROOMS.len())];
        let list = if r.once_in(16) { of_text(wanted.plan(), &mut r, room) } else { nests(&mut r, room) };
        write(out, &list, room)?;
    }
    let small = small(wanted.count, wanted.seed);
    for index in 0..small.count + lists::LEVELS_COUNT {
        let (mut r, mut tokens) = (Random::new(wanted.seed, 1, index), Vec::new());
        match index.checked_sub(small.count) {
            None => drop((small.make)(index, &mut r, &mut tokens)),
            Some(index) => tokens = lists::levels(index),
        }
        let room = (tokens.len() + [1, 1, 1, 2, 4, 0][r.below(6)]).saturating_sub(1);
        write(out, &lists::numbers(&mut r, &tokens), room)?;
    }
    whole(out, wanted.seed)
}

/// The most records that are taken, one more and one less, with numbers over or none, and the numbers lent: enough for all, exactly or not,
/// one short, or none.
const WHOLE: [(usize, usize, usize); 12] = [
    (TOO_MANY - 1, 0, TOO_MANY - 1),
    (TOO_MANY - 1, 0, TOO_MANY + 60),
    (TOO_MANY - 1, 0, TOO_MANY - 2),
    (TOO_MANY - 2, 0, TOO_MANY - 2),
    (TOO_MANY, 0, TOO_MANY),
    (TOO_MANY, 0, TOO_MANY - 1),
    (TOO_MANY, 0, 0),
    (TOO_MANY - 1, 1, TOO_MANY - 1),
    (TOO_MANY - 1, 2, 0),
    (TOO_MANY - 1, 3, TOO_MANY),
    (TOO_MANY - 1, 4, TOO_MANY),
    (TOO_MANY, 1, 0),
];

fn whole(out: &mut impl Write, seed: u64) -> io::Result<bool> {
    for (case, (records, over, room)) in WHOLE.into_iter().enumerate() {
        // What is refused for its length alone is tried with one sort of list.
        for turn in 0..if case < 2 { SORTS } else { 1 } {
            let mut r = Random::new(seed, 2, SORTS * case as u64 + turn);
            let mut list = long(&mut r, records, turn + case as u64 / 2);
            list.extend(&[1, 2, 9, 10][..over]);
            write(out, &list, room)?;
        }
    }
    Ok(true)
}

fn write(out: &mut impl Write, list: &[u32], room: usize) -> io::Result<()> {
    let mut lent = vec![u32::MAX; room];
    let (status, value, partners) = match pairs::pair(list, &mut lent) {
        Ok(deepest) => (DONE, deepest, &lent[..list.len() / WIDTH]),
        Err((refusal, index)) => (status(refusal), index, &[][..]),
    };
    let mut bytes = Vec::new();
    numbers::push(&mut bytes, &[status, value as u32, list.len() as u32, room as u32]);
    numbers::push(&mut bytes, list);
    numbers::push(&mut bytes, partners);
    out.write_all(&bytes)
}
