//! The comparisons of a program: what each reads of an instance, when it holds, and its steps (01, "Meaning" and
//! "Steps").

use crate::automaton::Automaton;
use crate::bytes::{signed, unsigned, word};
use crate::datetime::{self, Datetime};
use crate::elements::Elements;
use crate::kind::Type;
use crate::literal::Literal;
use crate::note::Note;
use crate::text::{self, Coding};
use crate::value::{compare, order, order_of_datetimes, read, same, Order, Value, NULLS, SAME, UNDECIDED};
use crate::walk::Notes;
use std::ops::Range;

/// Whether a comparison holds, and its steps.
pub type Judgement = (bool, u64);

/// A property, or an element of one.
#[derive(Clone, Copy)]
pub struct Place {
    pub property: u8,
    pub of: Type,
    pub index: Option<u16>,
}

/// The first few are what most filters ask, without the detour of a value.
pub enum Test {
    Unsigned(u8, u64),
    Signed(u8, i64),
    Real(u8, f64),
    Datetime(u8, Datetime),
    Bytes(u8, Range<usize>),
    Literal(Place, Literal),
    Places(Place, Place),
    /// An array beside some of the program's elements.
    Elements(u8, Type, Range<usize>),
    Arrays([u8; 2], [Type; 2]),
    /// ANY, or else EVERY.
    Search(Search),
    /// The number of the automaton.
    Like(Place, usize),
}

pub struct Search {
    pub property: u8,
    pub of: Type,
    pub is_any: bool,
    pub right: Scalar,
}

pub enum Scalar {
    Literal(Literal),
    Place(Place),
}

pub struct Operation {
    pub orders: Order,
    pub is_negated: bool,
    pub test: Test,
}

/// An instance that conforms, what was noted of it, and the program's values.
pub struct Reading<'a> {
    pub instance: &'a [u8],
    pub notes: &'a Notes,
    pub pool: &'a [u8],
    pub elements: &'a [Literal],
}

impl<'a> Reading<'a> {
    #[inline(always)]
    fn note(&self, property: u8) -> Note {
        self.notes[usize::from(property & 0x7f)]
    }

    /// None for NULL.
    #[inline(always)]
    fn body(&self, property: u8) -> Option<&'a [u8]> {
        let note = self.note(property);
        if note.is_null() {
            None
        } else {
            Some(note.body(self.instance))
        }
    }

    /// An index past the end, or into NULL, reads NULL.
    #[inline(always)]
    fn value(&self, place: Place) -> Value<'a> {
        let note = self.note(place.property);
        if note.is_null() {
            return Value::Null;
        }
        let body = note.body(self.instance);
        match place.index {
            None => read(place.of, body),
            Some(index) if usize::from(index) < note.elements() => {
                Elements::new(body, place.of).nth(usize::from(index)).unwrap()
            }
            Some(_) => Value::Null,
        }
    }

    #[inline(always)]
    fn scalar(&self, scalar: &Scalar, beside: Type) -> Value<'a> {
        match scalar {
            Scalar::Literal(literal) => literal.value(self.pool, beside),
            Scalar::Place(place) => self.value(*place),
        }
    }
}

impl Operation {
    #[inline(always)]
    pub fn judge(&self, reading: &Reading, automata: &mut [Automaton]) -> Judgement {
        let by = |order: Order| (self.orders & order != 0, 1);
        let one = |property, order: &dyn Fn(&[u8]) -> Order| by(reading.body(property).map_or(UNDECIDED, order));
        match &self.test {
            Test::Unsigned(property, literal) => one(*property, &|body| order(unsigned(body), *literal)),
            Test::Signed(property, literal) => one(*property, &|body| order(signed(body), *literal)),
            Test::Real(property, literal) => one(*property, &|body| order(f64::from_bits(word(body, 0)), *literal)),
            Test::Datetime(property, literal) => {
                one(*property, &|body| order_of_datetimes(datetime::read(body), *literal))
            }
            Test::Bytes(property, part) => one(*property, &|body| same(body == &reading.pool[part.clone()])),
            Test::Literal(place, literal) => by(compare(reading.value(*place), literal.value(reading.pool, place.of))),
            Test::Places(left, right) => by(compare(reading.value(*left), reading.value(*right))),
            Test::Elements(property, of, right) => self.elements(reading, *property, *of, right),
            Test::Arrays(properties, of) => self.arrays(reading, *properties, *of),
            Test::Search(search) => self.search(reading, search),
            Test::Like(place, number) => self.like(reading, *place, &mut automata[*number]),
        }
    }

    /// Arrays of equal size count one for each pair up to and with the first unequal one.
    #[inline(always)]
    fn pairs<'v>(&self, pairs: impl Iterator<Item = (Value<'v>, Value<'v>)>) -> Judgement {
        let (mut steps, mut equal) = (1, true);
        for (left, right) in pairs {
            steps += 1;
            if compare(left, right) & (SAME | NULLS) == 0 {
                equal = false;
                break;
            }
        }
        (self.orders & same(equal) != 0, steps)
    }

    fn elements(&self, reading: &Reading, property: u8, of: Type, right: &Range<usize>) -> Judgement {
        let (note, literals) = (reading.note(property), &reading.elements[right.clone()]);
        if note.is_null() || note.elements() != literals.len() {
            return (self.orders & UNDECIDED != 0, 1);
        }
        let literals = literals.iter().map(|literal| literal.value(reading.pool, of));
        self.pairs(Elements::new(note.body(reading.instance), of).zip(literals))
    }

    fn arrays(&self, reading: &Reading, properties: [u8; 2], of: [Type; 2]) -> Judgement {
        let [left, right] = properties.map(|property| reading.note(property));
        if left.is_null() && right.is_null() {
            return (self.orders & NULLS != 0, 1);
        }
        if left.is_null() || right.is_null() || left.elements() != right.elements() {
            return (self.orders & UNDECIDED != 0, 1);
        }
        let [left, right] =
            [(left, of[0]), (right, of[1])].map(|(note, of)| Elements::new(note.body(reading.instance), of));
        self.pairs(left.zip(right))
    }

    /// ANY ends at the first element that holds, EVERY at the first that doesn't; both are false on NULL.
    fn search(&self, reading: &Reading, search: &Search) -> Judgement {
        let Some(body) = reading.body(search.property) else { return (self.is_negated, 1) };
        let (right, mut steps) = (reading.scalar(&search.right, search.of), 1);
        for element in Elements::new(body, search.of) {
            steps += 1;
            if (self.orders & compare(element, right) != 0) == search.is_any {
                return (search.is_any != self.is_negated, steps);
            }
        }
        (search.is_any == self.is_negated, steps)
    }

    /// LIKE on NULL is false. Each character counts, also where the match is lost early.
    #[inline(always)]
    fn like(&self, reading: &Reading, place: Place, automaton: &mut Automaton) -> Judgement {
        let coding = if place.index.is_none() { reading.note(place.property).coding() } else { Coding::Utf8 };
        match reading.value(place) {
            Value::Bytes(text) => {
                let characters = if coding == Coding::Ascii { text.len() as u64 } else { text::count(text) };
                (automaton.matches(text, coding) != self.is_negated, 1 + characters)
            }
            Value::Character(character) => (automaton.matches_one(character) != self.is_negated, 2),
            _ => (self.is_negated, 1),
        }
    }
}
