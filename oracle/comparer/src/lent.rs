//! Lent lists: room that is filled with a pattern before it is lent, or with the mesh's own numbers where a call changes these, with a guarded strip on both sides of it.

use judge::Numbers;

/// How many numbers are guarded before and after the room.
const GUARD: usize = 16;

/// A number that a list can hold.
pub trait Number: Copy + std::fmt::Debug {
    /// What stands at place i of a list before it is lent.
    fn pattern(i: usize) -> Self;
    /// Equal by its bits; a NaN is like any other NaN.
    fn same(self, other: Self) -> bool;
    /// Another number.
    fn other(self) -> Self;
}

impl Number for f64 {
    fn pattern(i: usize) -> f64 {
        f64::from_bits(0x4321_8765_0000_0000 + i as u64)
    }
    fn same(self, other: f64) -> bool {
        self.to_bits() == other.to_bits() || self.is_nan() && other.is_nan()
    }
    fn other(self) -> f64 {
        f64::from_bits(self.to_bits() ^ 0x8000_0000_0000_0000)
    }
}

impl Number for u32 {
    fn pattern(i: usize) -> u32 {
        0xa5a5_0000 + i as u32
    }
    fn same(self, other: u32) -> bool {
        self == other
    }
    fn other(self) -> u32 {
        self ^ 1
    }
}

impl Number for u64 {
    fn pattern(i: usize) -> u64 {
        0xa5a5_c3c3_0000_0000 + i as u64
    }
    fn same(self, other: u64) -> bool {
        self == other
    }
    fn other(self) -> u64 {
        self ^ 1 << 32
    }
}

impl Number for u8 {
    fn pattern(i: usize) -> u8 {
        0x80 | i as u8
    }
    fn same(self, other: u8) -> bool {
        self == other
    }
    fn other(self) -> u8 {
        self ^ 1
    }
}

/// A list of the product's, of some room.
pub struct List<T> {
    numbers: Vec<T>,
}

impl<T: Number> List<T> {
    pub fn of_room(room: usize) -> List<T> {
        List { numbers: (0..room + 2 * GUARD).map(T::pattern).collect() }
    }
    pub fn room(&self) -> usize {
        self.numbers.len() - 2 * GUARD
    }
    pub fn lend(&mut self) -> (*mut T, usize) {
        (self.numbers[GUARD..].as_mut_ptr(), self.room())
    }
    pub fn in_room(&mut self) -> &mut [T] {
        let end = self.numbers.len() - GUARD;
        &mut self.numbers[GUARD..end]
    }

    fn front(&self, count: usize) -> Vec<T> {
        self.numbers[GUARD..GUARD + count].to_vec()
    }

    /// Where the list is not `expected` and then the pattern.
    fn difference(&self, expected: &[T]) -> Option<String> {
        let at = |i: usize| if i < GUARD { None } else { expected.get(i - GUARD) };
        (0..self.numbers.len()).find_map(|i| {
            let (found, place) = (self.numbers[i], i as isize - GUARD as isize);
            match at(i) {
                Some(right) if !found.same(*right) => Some(format!("place {place} holds {found:?}, not {right:?}")),
                None if !found.same(T::pattern(i)) => Some(format!("place {place}, past the result, was written: {found:?}")),
                _ => None,
            }
        })
    }
}

/// A lent list of any kind.
pub enum Lent {
    Floats(List<f64>),
    Words(List<u32>),
    Longs(List<u64>),
    Bytes(List<u8>),
}

impl Lent {
    /// A list of the same kind as `numbers`.
    pub fn like(numbers: &Numbers, room: usize) -> Lent {
        match numbers {
            Numbers::Floats(_) => Lent::Floats(List::of_room(room)),
            Numbers::Words(_) => Lent::Words(List::of_room(room)),
            Numbers::Longs(_) => Lent::Longs(List::of_room(room)),
            Numbers::Bytes(_) => Lent::Bytes(List::of_room(room)),
        }
    }

    /// A list that holds just these numbers, between its guarded strips.
    pub fn holding(numbers: &Numbers) -> Lent {
        let length = match numbers {
            Numbers::Floats(list) => list.len(),
            Numbers::Words(list) => list.len(),
            Numbers::Longs(list) => list.len(),
            Numbers::Bytes(list) => list.len(),
        };
        let mut lent = Lent::like(numbers, length);
        lent.overwrite(numbers);
        lent
    }

    pub fn difference(&self, expected: &Numbers) -> Option<String> {
        match (self, expected) {
            (Lent::Floats(list), Numbers::Floats(expected)) => list.difference(expected),
            (Lent::Words(list), Numbers::Words(expected)) => list.difference(expected),
            (Lent::Longs(list), Numbers::Longs(expected)) => list.difference(expected),
            (Lent::Bytes(list), Numbers::Bytes(expected)) => list.difference(expected),
            _ => Some("another kind of list".to_string()),
        }
    }

    /// The numbers at the front.
    pub fn front_floats(&self, count: usize) -> Vec<f64> {
        match self {
            Lent::Floats(list) => list.front(count),
            _ => panic!("no list of f64"),
        }
    }

    pub fn front_words(&self, count: usize) -> Vec<u32> {
        match self {
            Lent::Words(list) => list.front(count),
            _ => panic!("no list of u32"),
        }
    }

    pub fn front_bytes(&self, count: usize) -> Vec<u8> {
        match self {
            Lent::Bytes(list) => list.front(count),
            _ => panic!("no list of bytes"),
        }
    }

    /// Pointer and length, as the C interface takes them.
    pub fn floats(&mut self) -> (*mut f64, usize) {
        match self {
            Lent::Floats(list) => list.lend(),
            _ => panic!("no list of f64"),
        }
    }

    pub fn words(&mut self) -> (*mut u32, usize) {
        match self {
            Lent::Words(list) => list.lend(),
            _ => panic!("no list of u32"),
        }
    }

    pub fn longs(&mut self) -> (*mut u64, usize) {
        match self {
            Lent::Longs(list) => list.lend(),
            _ => panic!("no list of u64"),
        }
    }

    pub fn bytes(&mut self) -> (*mut u8, usize) {
        match self {
            Lent::Bytes(list) => list.lend(),
            _ => panic!("no list of bytes"),
        }
    }

    /// Makes the number at a place another one, where there is room for it.
    pub fn spoil(&mut self, place: usize) {
        fn spoil<T: Number>(room: &mut [T], place: usize) {
            if let Some(number) = room.get_mut(place) {
                *number = number.other();
            }
        }
        match self {
            Lent::Floats(list) => spoil(list.in_room(), place),
            Lent::Words(list) => spoil(list.in_room(), place),
            Lent::Longs(list) => spoil(list.in_room(), place),
            Lent::Bytes(list) => spoil(list.in_room(), place),
        }
    }

    /// Writes numbers of the same kind to the front, as far as there is room.
    pub fn overwrite(&mut self, numbers: &Numbers) {
        fn overwrite<T: Number>(room: &mut [T], numbers: &[T]) {
            room.iter_mut().zip(numbers).for_each(|(place, number)| *place = *number);
        }
        match (self, numbers) {
            (Lent::Floats(list), Numbers::Floats(numbers)) => overwrite(list.in_room(), numbers),
            (Lent::Words(list), Numbers::Words(numbers)) => overwrite(list.in_room(), numbers),
            (Lent::Longs(list), Numbers::Longs(numbers)) => overwrite(list.in_room(), numbers),
            (Lent::Bytes(list), Numbers::Bytes(numbers)) => overwrite(list.in_room(), numbers),
            _ => panic!("another kind of list"),
        }
    }
}
