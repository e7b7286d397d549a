//! LIKE as a deterministic automaton whose states and steps are made when a text first asks for them, and kept from one
//! instance to the next. A pattern with too many states goes on with sets of live symbols.

use crate::classes::Classes;
use crate::pattern::Pattern;
use crate::text::{first, Coding};

/// Stands for the beginning in a set of live symbols.
const BEGINNING: u64 = 1 << 63;
const MOST_STATES: usize = 128;

/// A step that isn't made yet, and the ends that are certain whatever follows.
const UNMADE: u16 = u16::MAX;
const FAILS: u16 = u16::MAX - 1;
const FITS: u16 = u16::MAX - 2;

pub struct Automaton {
    pattern: Pattern,
    classes: Classes,
    /// The live symbols of each state. The first state is the beginning.
    sets: Vec<u64>,
    /// The steps of each state, by character and by class.
    ascii: Vec<[u16; 128]>,
    beyond: Vec<u16>,
    /// The symbols behind eight live ones, for each eight; made for a pattern with too many states.
    behind: Vec<[u64; 256]>,
}

/// A character that leads away from a state, its step, and the text behind it.
struct Leaving<'t> {
    character: u32,
    step: u16,
    behind: &'t [u8],
}

impl Automaton {
    pub fn new(pattern: Pattern) -> Automaton {
        let classes = Classes::new(&pattern);
        let mut automaton = Automaton { pattern, classes, sets: vec![], ascii: vec![], beyond: vec![], behind: vec![] };
        automaton.add(BEGINNING);
        automaton
    }

    fn add(&mut self, set: u64) -> u16 {
        self.sets.push(set);
        self.ascii.push([UNMADE; 128]);
        self.beyond.resize(self.sets.len() * self.classes.beyond.len(), UNMADE);
        self.sets.len() as u16 - 1
    }

    fn fits(&self, set: u64) -> bool {
        if set == BEGINNING {
            self.pattern.is_nullable
        } else {
            set & self.pattern.last != 0
        }
    }

    /// The symbols that may come next.
    fn next(&self, set: u64) -> u64 {
        if set == BEGINNING {
            return self.pattern.first;
        }
        let (mut left, mut next) = (set, 0);
        while left != 0 {
            next |= self.pattern.follow[left.trailing_zeros() as usize];
            left &= left - 1;
        }
        next
    }

    /// Where the symbols of a character lead from a state; none where there is no room for a further one.
    #[cold]
    #[inline(never)]
    fn make(&mut self, state: u16, symbols: u64) -> Option<u16> {
        let set = self.next(self.sets[usize::from(state)]) & symbols;
        if set == 0 {
            return Some(FAILS);
        }
        // Each character leads back to a set that `.` alone keeps alive.
        if self.next(set) == set && self.classes.of_ascii.iter().chain(&self.classes.beyond).all(|s| s & set == set) {
            return Some(if self.fits(set) { FITS } else { FAILS });
        }
        match self.sets.iter().position(|&known| known == set) {
            Some(known) => Some(known as u16),
            None if self.sets.len() < MOST_STATES => Some(self.add(set)),
            None => None,
        }
    }

    /// Whether the whole text fits.
    #[inline]
    pub fn matches(&mut self, text: &[u8], coding: Coding) -> bool {
        match coding {
            Coding::Ascii => self.run(text, Automaton::leaving_ascii),
            Coding::Utf8 => self.run(text, Automaton::leaving_utf8),
        }
    }

    #[inline(always)]
    fn run<'t>(&mut self, text: &'t [u8], leaving: impl Fn(&Self, u16, &'t [u8]) -> Option<Leaving<'t>>) -> bool {
        let (mut state, mut rest) = (0, text);
        while let Some(Leaving { character, step, behind }) = leaving(self, state, rest) {
            let step = if step == UNMADE { self.step(state, character) } else { Some(step) };
            match step {
                Some(FAILS) => return false,
                Some(FITS) => return true,
                Some(step) => (state, rest) = (step, behind),
                None => return self.simulate(self.sets[usize::from(state)], character, behind),
            }
        }
        self.fits(self.sets[usize::from(state)])
    }

    /// The first character that doesn't lead back to the state. While one does, no look-up waits for the one before it.
    #[inline(always)]
    fn leaving_ascii<'t>(&self, state: u16, rest: &'t [u8]) -> Option<Leaving<'t>> {
        let row = &self.ascii[usize::from(state)];
        let step = |byte: u8| row[usize::from(byte & 0x7f)];
        let at = rest.iter().position(|&byte| step(byte) != state)?;
        Some(Leaving { character: u32::from(rest[at]), step: step(rest[at]), behind: &rest[at + 1..] })
    }

    #[inline(always)]
    fn leaving_utf8<'t>(&self, state: u16, mut rest: &'t [u8]) -> Option<Leaving<'t>> {
        let ascii = &self.ascii[usize::from(state)];
        let classes = self.classes.beyond.len();
        let beyond = &self.beyond[usize::from(state) * classes..][..classes];
        while !rest.is_empty() {
            let (character, behind) = first(rest);
            let step = match ascii.get(character as usize) {
                Some(&step) => step,
                None => beyond[self.classes.number(character)],
            };
            if step != state {
                return Some(Leaving { character, step, behind });
            }
            rest = behind;
        }
        None
    }

    /// Where a character leads from a state; the step is made where it isn't yet.
    #[inline(always)]
    fn step(&mut self, state: u16, character: u32) -> Option<u16> {
        let row = usize::from(state);
        if character < 0x80 {
            if self.ascii[row][character as usize] == UNMADE {
                self.ascii[row][character as usize] = self.make(state, self.classes.symbols(character))?;
            }
            return Some(self.ascii[row][character as usize]);
        }
        let at = row * self.classes.beyond.len() + self.classes.number(character);
        if self.beyond[at] == UNMADE {
            self.beyond[at] = self.make(state, self.classes.symbols(character))?;
        }
        Some(self.beyond[at])
    }

    /// Whether a text of one character fits.
    pub fn matches_one(&mut self, character: u32) -> bool {
        match self.step(0, character) {
            Some(FAILS) => false,
            Some(FITS) => true,
            Some(state) => self.fits(self.sets[usize::from(state)]),
            None => self.fits(self.next(BEGINNING) & self.classes.symbols(character)),
        }
    }

    /// What may come behind each set of the eight symbols from here on.
    fn behind_eight(&self, symbol: usize) -> [u64; 256] {
        let all = (1 << self.pattern.follow.len()) - 1;
        std::array::from_fn(|live| self.next((live as u64) << symbol & all))
    }

    /// Goes on without states, from the set of one with a character and the text behind it.
    #[cold]
    #[inline(never)]
    fn simulate(&mut self, set: u64, character: u32, mut rest: &[u8]) -> bool {
        if self.behind.is_empty() {
            self.behind = (0..8).map(|eight| self.behind_eight(8 * eight)).collect();
        }
        let mut set = self.next(set) & self.classes.symbols(character);
        while !rest.is_empty() && set != 0 {
            let (character, behind) = first(rest);
            let live = set.to_le_bytes();
            let next = self.behind.iter().zip(live).fold(0, |all, (behind, live)| all | behind[usize::from(live)]);
            set = next & self.classes.symbols(character);
            rest = behind;
        }
        self.fits(set)
    }
}
