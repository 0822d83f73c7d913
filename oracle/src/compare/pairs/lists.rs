//! Lists to be paired: brackets that fit, nearly fit or are any, many of them about as deep as may be. Each is made as a row of bytes first, a
//! bracket each or `a` for any other token; `numbers` makes a record of each.

use super::super::random::Random;
use crate::kinds;
use crate::list::WIDTH;
use crate::pairs::LEVELS;
use crate::token::TokenType::{TK_LBRACKET, TK_LP, TK_RBRACKET, TK_RP};

/// What a token may be.
pub const TOKENS: &[u8] = b"()[]a";

/// About as many tokens as there is room for, so that lists that are exact, and one short, occur often.
pub fn any(r: &mut Random, room: usize) -> Vec<u8> {
    let count = match r.below(8) {
        0..=3 => room,
        4 => room + 1,
        5 => room.saturating_sub(1),
        _ => r.below(room + 1),
    };
    let limit = [2, 4, LEVELS - 1, LEVELS, LEVELS, LEVELS, LEVELS + 1, LEVELS + 1][r.below(8)];
    let mut tokens = match r.below(16) {
        0 | 1 => return (0..count).map(|_| r.byte_of(TOKENS)).collect(),
        2..=7 if count > LEVELS => tower(r, count),
        _ => nest(r, count, limit),
    };
    if r.once_in(2) {
        (0..=r.below(2)).for_each(|_| damage(r, &mut tokens));
    }
    tokens
}

/// So many tokens, whose brackets fit, no deeper than the limit: now it climbs, now it goes back.
pub fn nest(r: &mut Random, count: usize, limit: usize) -> Vec<u8> {
    let (mut tokens, mut open, mut climbs) = (Vec::with_capacity(count), Vec::new(), true);
    for left in (1..=count).rev() {
        climbs ^= r.once_in(2 * LEVELS);
        let must_close = open.len() == left;
        // An opener's closer has to find a place too.
        let token = match (climbs, open.last()) {
            _ if !must_close && r.once_in(5) => b'a',
            (true, _) if open.len() + 1 < left && open.len() < limit => opener(r),
            (false, Some(&last)) if !must_close => closer_of(last),
            (_, Some(&last)) if must_close => closer_of(last),
            _ => {
                climbs = !climbs;
                b'a'
            }
        };
        put(&mut tokens, &mut open, token);
    }
    tokens
}

/// So many tokens: to one level below the limit, the limit, or one or two above it, then back by some, and so on. All are closed, unless
/// the list ends anywhere.
fn tower(r: &mut Random, count: usize) -> Vec<u8> {
    let (mut tokens, mut open) = (Vec::with_capacity(count), Vec::new());
    let (same, closed) = (r.once_in(3).then(|| opener(r)), r.once_in(2));
    let taken = |tokens: &[u8], open: &[u8]| tokens.len() + if closed { open.len() } else { 0 };
    while taken(&tokens, &open) < count {
        let to = LEVELS - 1 + [0, 1, 1, 2, 2, 3][r.below(6)];
        while open.len() < to && taken(&tokens, &open) + 3 <= count {
            if r.once_in(6) {
                tokens.push(b'a');
            }
            let token = same.unwrap_or_else(|| opener(r));
            put(&mut tokens, &mut open, token);
        }
        (0..=r.below(open.len().max(1))).for_each(|_| close(&mut tokens, &mut open));
    }
    while closed && !open.is_empty() {
        close(&mut tokens, &mut open);
    }
    tokens.truncate(count);
    tokens
}

/// A token behind the others; `open` has the openers that it leaves open.
fn put(tokens: &mut Vec<u8>, open: &mut Vec<u8>, token: u8) {
    match token {
        b'(' | b'[' => open.push(token),
        b')' | b']' => drop(open.pop()),
        _ => {}
    }
    tokens.push(token);
}

/// Closes the last opener; another token where none is open.
fn close(tokens: &mut Vec<u8>, open: &mut Vec<u8>) {
    let token = open.last().map_or(b'a', |&last| closer_of(last));
    put(tokens, open, token);
}

fn opener(r: &mut Random) -> u8 {
    r.byte_of(b"([")
}

pub fn closer_of(opener: u8) -> u8 {
    if opener == b'(' {
        b')'
    } else {
        b']'
    }
}

/// The other sort of bracket; another token stays.
pub fn other_sort(token: u8) -> u8 {
    match token {
        b'(' => b'[',
        b'[' => b'(',
        b')' => b']',
        b']' => b')',
        _ => token,
    }
}

/// A token changed, dropped, added or elsewhere, a bracket of the other sort, or the list's end cut off.
pub fn damage(r: &mut Random, tokens: &mut Vec<u8>) {
    let place = r.below(tokens.len() + 1);
    if place == tokens.len() {
        tokens.push(r.byte_of(TOKENS));
        return;
    }
    match r.below(8) {
        0 => tokens[place] = r.byte_of(TOKENS),
        1 => drop(tokens.remove(place)),
        2 => tokens.insert(place, r.byte_of(TOKENS)),
        3 => tokens.swap(place, place.saturating_sub(1)),
        4 => {
            let other = r.below(tokens.len());
            tokens.swap(place, other);
        }
        5 => tokens.truncate(place),
        _ => tokens[place] = other_sort(tokens[place]),
    }
}

/// Records of the tokens. The other numbers of a record are any, also those of brackets: they say nothing.
pub fn numbers(r: &mut Random, tokens: &[u8]) -> Vec<u32> {
    let mut numbers = Vec::with_capacity(WIDTH * tokens.len() + WIDTH);
    for &token in tokens {
        numbers.push(kind(r, token));
        numbers.extend([(); WIDTH - 1].map(|()| [0, 1, 2, 9, 10, 65_536, u32::MAX, 7][r.below(8)]));
    }
    numbers
}

/// Of any other token also numbers that are no kind's, and such as are a bracket's in their low bits.
fn kind(r: &mut Random, token: u8) -> u32 {
    let bracket = match token {
        b'(' => TK_LP,
        b')' => TK_RP,
        b'[' => TK_LBRACKET,
        b']' => TK_RBRACKET,
        _ => {
            let near = [0, 3, 8, 11, 30, 175, 176, u32::MAX, r.below(1 << 32) as u32 | 16];
            let bracket = [TK_LP, TK_RP, TK_LBRACKET, TK_RBRACKET][r.below(4)];
            return match r.below(3) {
                0 => kinds::number(bracket) | 1 << (8 + r.below(24)),
                _ => near[r.below(near.len())],
            };
        }
    };
    kinds::number(bracket)
}

/// One to four numbers too many, or too few.
pub fn ragged(r: &mut Random, numbers: &mut Vec<u32>) {
    let by = 1 + r.below(WIDTH - 1);
    if numbers.len() > by && r.once_in(2) {
        numbers.truncate(numbers.len() - by);
    } else {
        (0..by).for_each(|_| numbers.push([1, 2, 9, 10][r.below(4)]));
    }
}

/// How many lists `levels` has.
pub const LEVELS_COUNT: u64 = DEPTHS * SHAPES * CHANGES;
const DEPTHS: u64 = 5;
const SHAPES: u64 = 6;
/// As many as the deepest has.
const CHANGES: u64 = 3 * (LEVELS as u64 + 2) + 3;

/// Openers to two levels below the limit, one below, the limit, one above or two above, of one sort or both by turns, with other tokens between
/// or not, and their closers; then one change: each closer of the other sort, each closer the first that is missing, each level gone back to
/// and one more than was there opened again, a closer too many behind or before, or none.
pub fn levels(index: u64) -> Vec<u8> {
    let depth = LEVELS - 2 + (index % DEPTHS) as usize;
    let shape = (index / DEPTHS % SHAPES) as usize;
    let change = (index / DEPTHS / SHAPES) as usize;
    let openers: Vec<_> = (0..depth).map(|level| [b"((", b"[[", b"(["][shape % 3][level % 2]).collect();
    let mut closers: Vec<_> = openers.iter().rev().map(|&opener| closer_of(opener)).collect();
    let (sort, place) = (change / (LEVELS + 2), change % (LEVELS + 2));
    let mut front = Vec::new();
    match sort {
        0 => closers.iter_mut().skip(place).take(1).for_each(|closer| *closer = other_sort(*closer)),
        1 => closers.truncate(place),
        2 => {
            let back = place.min(depth);
            let again: Vec<_> = [b'('].into_iter().chain(openers[depth - back..].iter().copied()).collect();
            let closed: Vec<_> = again.iter().rev().map(|&opener| closer_of(opener)).collect();
            closers.splice(back..back, [again, closed].concat());
        }
        _ if place == 0 => closers.push(b')'),
        _ if place == 1 => front.push(b']'),
        _ => {}
    }
    let tokens = [front, openers, closers].concat();
    if shape < 3 {
        return tokens;
    }
    tokens.into_iter().flat_map(|token| [token, b'a']).collect()
}
