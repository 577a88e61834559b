//! The same turns over a plain buddy allocator, and over the system's: rustc -O bench/pieces/plain.rs -o /tmp/plain && /tmp/plain
//!
//! Before a piece is put back the plain allocator is asked whether it is live, as ours is: whether its place, which may be any
//! number, has the mark of a live piece of its class. Our pieces go by buffer and byte, of which ours asks too whether they
//! name a place. The system's allocator can't be asked.
use std::time::Instant;

const HELD: usize = 1024;
const TURNS: u64 = 10_000_000;
const PLACES: u32 = 16384;
const BUFS: u32 = 8;
const CLASSES: usize = 15;
const NONE: u32 = u32::MAX;

#[derive(Clone, Copy)]
struct Link {
    next: u32,
    prev: u32,
    class: u8,
}

// A live piece: the place where it begins, and its class.
struct Piece {
    place: u32,
    class: u8,
}

// Eight buffers of 16384 places of 64 bytes, and for each class a list of free pieces through one table.
struct Buddy {
    links: Vec<Link>,
    heads: [u32; CLASSES],
    live: Vec<u8>,
    buffers: Vec<Option<Box<[u8]>>>,
}

impl Buddy {
    fn new() -> Buddy {
        let places = (PLACES * BUFS) as usize;
        Buddy {
            links: vec![Link { next: NONE, prev: NONE, class: u8::MAX }; places],
            heads: [NONE; CLASSES],
            live: vec![0; places],
            buffers: (0..BUFS).map(|_| None).collect(),
        }
    }

    fn push(&mut self, class: usize, place: u32) {
        let next = self.heads[class];
        self.links[place as usize] = Link { next, prev: NONE, class: class as u8 };
        if next != NONE {
            self.links[next as usize].prev = place;
        }
        self.heads[class] = place;
    }

    fn remove(&mut self, place: u32) {
        let Link { next, prev, class } = self.links[place as usize];
        if prev == NONE {
            self.heads[class as usize] = next;
        } else {
            self.links[prev as usize].next = next;
        }
        if next != NONE {
            self.links[next as usize].prev = prev;
        }
        self.links[place as usize].class = u8::MAX;
    }

    fn take(&mut self, bytes: u32) -> Option<Piece> {
        let class = bytes.max(64).next_power_of_two().trailing_zeros() as usize - 6;
        let place = match (class..CLASSES).find(|c| self.heads[*c] != NONE) {
            Some(from) => {
                let place = self.heads[from];
                self.remove(place);
                self.halve(place, from, class);
                place
            }
            None => {
                let number = self.buffers.iter().position(|b| b.is_none())?;
                self.buffers[number] = Some(vec![0; 1 << 20].into_boxed_slice());
                let place = number as u32 * PLACES;
                self.halve(place, CLASSES - 1, class);
                place
            }
        };
        let class = class as u8;
        self.live[place as usize] = class + 1;
        Some(Piece { place, class })
    }

    fn halve(&mut self, place: u32, from: usize, to: usize) {
        for class in (to..from).rev() {
            self.push(class, place + (1 << class));
        }
    }

    fn is_live(&self, piece: &Piece) -> bool {
        self.live.get(piece.place as usize) == Some(&(piece.class + 1))
    }

    fn put_back(&mut self, piece: Piece) {
        let Piece { mut place, class } = piece;
        let mut class = class as usize;
        self.live[place as usize] = 0;
        while class + 1 < CLASSES {
            let other = place ^ (1 << class);
            if self.links[other as usize].class != class as u8 {
                self.push(class, place);
                return;
            }
            self.remove(other);
            place = place.min(other);
            class += 1;
        }
        self.buffers[(place / PLACES) as usize] = None;
    }
}

fn turns(mut turn: impl FnMut(usize, u32)) {
    let start = Instant::now();
    let mut at = 1u64;
    for _ in 0..TURNS {
        at = at.wrapping_mul(6364136223846793005).wrapping_add(1442695040888963407);
        let bytes = 64 + ((at >> 33) % 4033) as u32;
        turn((at >> 50) as usize % HELD, bytes);
    }
    print!("{} ms ", start.elapsed().as_millis());
}

fn main() {
    for _ in 0..3 {
        let mut buddy = Buddy::new();
        let mut held: Vec<Option<Piece>> = (0..HELD).map(|_| None).collect();
        turns(|index, bytes| {
            if let Some(piece) = held[index].take() {
                assert!(buddy.is_live(&piece));
                buddy.put_back(piece);
            }
            held[index] = Some(buddy.take(bytes).expect("a piece"));
        });
        let mut slots: Vec<Vec<u8>> = (0..HELD).map(|_| Vec::new()).collect();
        turns(|index, bytes| {
            slots[index] = Vec::new();
            slots[index] = std::hint::black_box(Vec::with_capacity(bytes as usize));
        });
        println!("(plain buddy, system)");
    }
}
