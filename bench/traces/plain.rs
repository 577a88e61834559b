//! Judges the texts of traces, as bench/traces does: the same rules over the maps of Rust's own library.
//! rustc -O plain.rs; the words are `FILE..`, or `time FILE`.
use std::collections::BTreeMap;
use std::time::Instant;

#[derive(Clone, Copy, PartialEq)]
enum Place {
    Pinned(u64),
    Dirty,
    Flying(u32),
    Loading,
    Clean,
    Evicted,
}

impl Place {
    fn charged(self) -> u64 {
        match self {
            Place::Pinned(count) => count,
            Place::Loading => 1,
            _ => 0,
        }
    }

    fn held(self) -> u64 {
        match self {
            Place::Dirty | Place::Flying(_) => 1,
            place => place.charged(),
        }
    }
}

struct Tracker {
    parent: Option<u32>,
    limit: u64,
    reservation: u64,
    children: u64,
    under: u64,
    charge: u64,
    held: u64,
    owned: u64,
    dirty: BTreeMap<u64, u64>,
}

impl Tracker {
    fn new(parent: Option<u32>, limit: u64) -> Tracker {
        Tracker {
            parent,
            limit,
            reservation: 0,
            children: 0,
            under: 0,
            charge: 0,
            held: 0,
            owned: 0,
            dirty: BTreeMap::new(),
        }
    }

    fn unused(&self) -> u64 {
        self.reservation - self.charge - self.children
    }

    fn has_room(&self, bytes: u64) -> bool {
        bytes <= self.reservation - self.held
    }
}

struct Session {
    query: u32,
    quota: u32,
    lent: u64,
}

#[derive(Default)]
struct Asked {
    failures: BTreeMap<u32, u64>,
    reads: BTreeMap<u64, u64>,
}

struct Page {
    session: u32,
    client: u32,
    blocks: u32,
    place: Place,
    has_slots: bool,
    version: u64,
    stamp: u64,
}

struct Buffer {
    client: u32,
    blocks: u32,
}

struct Pool {
    block_len: u64,
    free: u64,
    next_name: u64,
    entries: u64,
    trackers: BTreeMap<u32, Tracker>,
    sessions: BTreeMap<u32, Session>,
    asked: BTreeMap<u32, Asked>,
    pages: BTreeMap<u64, Page>,
    buffers: BTreeMap<u32, Buffer>,
    clean: BTreeMap<u64, u64>,
}

#[derive(Clone, Copy)]
struct Numbers {
    items: [u64; 6],
    count: usize,
}

enum Answer {
    Entries(u64, bool),
    Large,
    Syntax(u64),
    Illegal(u64),
}

fn number_at(bytes: &[u8]) -> Option<(u64, &[u8])> {
    let mut value = 0u64;
    let mut at = 0;
    while let Some(digit) = bytes.get(at).filter(|byte| byte.is_ascii_digit()) {
        value = value
            .checked_mul(10)?
            .checked_add(u64::from(digit - b'0'))?;
        at += 1;
    }
    if at == 0 || (at > 1 && bytes[0] == b'0') {
        return None;
    }
    Some((value, &bytes[at..]))
}

// A word and what is behind it.
fn word_at(bytes: &[u8]) -> Option<(&[u8], &[u8])> {
    let len = bytes
        .iter()
        .position(|byte| !byte.is_ascii_alphanumeric() && *byte != b'_')?;
    (len > 0).then(|| bytes.split_at(len))
}

// Numbers, each with a space before it, and a newline.
fn numbers_at(mut bytes: &[u8]) -> Option<(Numbers, &[u8])> {
    let mut numbers = Numbers {
        items: [0; 6],
        count: 0,
    };
    while let Some(rest) = bytes.strip_prefix(b" ") {
        let (value, rest) = number_at(rest)?;
        *numbers.items.get_mut(numbers.count)? = value;
        numbers.count += 1;
        bytes = rest;
    }
    Some((numbers, bytes.strip_prefix(b"\n")?))
}

// How many numbers an event has, and which of them are of 32 bits.
fn form_of(name: &[u8], call: &[u8], n: &Numbers) -> Option<()> {
    let (count, narrow): (usize, &[usize]) = match (name, call) {
        (b"Ask", b"") => (0, &[]),
        (b"AddTracker", b"") if n.items[1] == 0 => (4, &[0, 1, 3]),
        (b"AddTracker", b"") => (3, &[0, 1]),
        (b"CloseTracker", b"") | (b"Free", b"") => (1, &[0]),
        (b"Increase" | b"IncreaseToFit" | b"Decrease", b"") => (2, &[0]),
        (b"MoveReservation", b"") => (3, &[0, 1]),
        (b"Create", b"") => (3, &[1, 2]),
        (b"Alloc", b"") => (3, &[0, 1, 2]),
        (b"MoveBuffer", b"") => (2, &[0, 1]),
        (b"Extract", b"") => (2, &[1]),
        (b"ReadStale", b"") => (6, &[2, 5]),
        (
            b"PinHere" | b"PinLoad" | b"PinAgain" | b"ReadOk" | b"ReadFailed" | b"Unpin"
            | b"UnpinOnce" | b"UnpinRefused" | b"Destroy" | b"StartWrite" | b"WriteOk"
            | b"WriteFailed" | b"Evict",
            b"",
        ) => (1, &[]),
        (b"Refused", b"pin" | b"pin_again") => (2, &[]),
        (b"Refused", b"create" | b"alloc" | b"move_buffer") => (3, &[0, 1]),
        (b"Refused", b"give_back") => (3, &[0]),
        (b"Refused", b"move_reservation") => (4, &[0, 1]),
        _ => return None,
    };
    let fits = n.count == count && narrow.iter().all(|at| n.items[*at] <= u64::from(u32::MAX));
    fits.then_some(())
}

struct Line<'a> {
    writer: bool,
    maker: u32,
    name: &'a [u8],
    call: &'a [u8],
    n: [u64; 6],
}

fn line_at(bytes: &[u8]) -> Option<(Line<'_>, &[u8])> {
    let (letter, rest) = bytes.split_first()?;
    let writer = match letter {
        b's' => false,
        b'w' => true,
        _ => return None,
    };
    let (maker, rest) = number_at(rest)?;
    let maker = u32::try_from(maker).ok()?;
    let (name, mut rest) = word_at(rest.strip_prefix(b" ")?)?;
    let mut call: &[u8] = b"";
    if name == b"Refused" {
        (call, rest) = word_at(rest.strip_prefix(b" ")?)?;
    }
    let (numbers, rest) = numbers_at(rest)?;
    form_of(name, call, &numbers)?;
    Some((
        Line {
            writer,
            maker,
            name,
            call,
            n: numbers.items,
        },
        rest,
    ))
}

fn opening_at(bytes: &[u8]) -> Option<(Pool, &[u8])> {
    let (n, rest) = numbers_at(bytes.strip_prefix(b"pool")?)?;
    let [blocks, block_len, first_name, ..] = n.items;
    let is_len = block_len.is_power_of_two() && (64..=65536).contains(&block_len);
    if n.count != 3 || !is_len || !(1..=1048576).contains(&blocks) || blocks * block_len > 1 << 31 {
        return None;
    }
    let memory = blocks * block_len;
    let pool = Pool {
        block_len,
        free: memory,
        next_name: first_name,
        entries: 0,
        trackers: BTreeMap::from([(0, Tracker::new(None, memory))]),
        sessions: BTreeMap::new(),
        asked: BTreeMap::new(),
        pages: BTreeMap::new(),
        buffers: BTreeMap::new(),
        clean: BTreeMap::new(),
    };
    Some((pool, rest))
}

impl Pool {
    fn query_of(&self, maker: u32) -> Option<u32> {
        Some(self.sessions.get(&maker)?.query)
    }

    fn is_client(&self, maker: u32, c: u32) -> bool {
        self.query_of(maker).is_some_and(|query| {
            self.trackers
                .get(&c)
                .is_some_and(|tracker| tracker.parent == Some(query))
        })
    }

    fn is_own(&self, maker: u32, t: u32) -> bool {
        self.query_of(maker) == Some(t) || self.is_client(maker, t)
    }

    fn bytes(&self, blocks: u32) -> u64 {
        u64::from(blocks) * self.block_len
    }

    fn page_of(&self, maker: u32, p: u64) -> Option<&Page> {
        self.pages.get(&p).filter(|page| page.session == maker)
    }

    fn has_room(&self, c: u32, bytes: u64) -> bool {
        self.trackers
            .get(&c)
            .is_some_and(|tracker| tracker.has_room(bytes))
    }

    // The page goes to this place: its client's sums, what is free, and the lists of those that wait.
    fn place(&mut self, p: u64, place: Place) -> Option<()> {
        let page = self.pages.get_mut(&p)?;
        let bytes = u64::from(page.blocks) * self.block_len;
        let old = page.place;
        let stamp = page.stamp;
        page.place = place;
        page.stamp = self.entries;
        let client = self.trackers.get_mut(&page.client)?;
        client.charge = client.charge + place.charged() * bytes - old.charged() * bytes;
        client.held = client.held + place.held() * bytes - old.held() * bytes;
        match old {
            Place::Dirty => drop(client.dirty.remove(&stamp)),
            Place::Clean => drop(self.clean.remove(&stamp)),
            Place::Evicted => self.free -= bytes,
            _ => (),
        }
        match place {
            Place::Dirty => drop(client.dirty.insert(self.entries, p)),
            Place::Clean => drop(self.clean.insert(self.entries, p)),
            Place::Evicted => self.free += bytes,
            _ => (),
        }
        Some(())
    }

    // The page ends; its blocks stay where a buffer takes them.
    fn end(&mut self, p: u64, keeps: bool) -> Option<()> {
        let page = self.pages.remove(&p)?;
        let bytes = u64::from(page.blocks) * self.block_len;
        let client = self.trackers.get_mut(&page.client)?;
        client.charge -= page.place.charged() * bytes;
        client.held -= page.place.held() * bytes;
        client.owned -= 1;
        match page.place {
            Place::Dirty => drop(client.dirty.remove(&page.stamp)),
            Place::Clean => drop(self.clean.remove(&page.stamp)),
            _ => (),
        }
        if page.place != Place::Evicted && !keeps {
            self.free += bytes;
        }
        if page.has_slots {
            self.sessions.get_mut(&page.session)?.lent -= u64::from(page.blocks);
        }
        Some(())
    }

    fn load(&mut self, c: u32, blocks: u32) -> Option<()> {
        let bytes = self.bytes(blocks);
        let client = self.trackers.get_mut(&c)?;
        client.charge += bytes;
        client.held += bytes;
        client.owned += 1;
        Some(())
    }

    fn unload(&mut self, c: u32, blocks: u32) -> Option<()> {
        let bytes = self.bytes(blocks);
        let client = self.trackers.get_mut(&c)?;
        client.charge -= bytes;
        client.held -= bytes;
        client.owned -= 1;
        Some(())
    }

    fn raise(&mut self, t: u32, bytes: u64) -> Option<()> {
        let tracker = self.trackers.get_mut(&t)?;
        tracker.reservation += bytes;
        if let Some(parent) = tracker.parent {
            self.trackers.get_mut(&parent)?.children += bytes;
        }
        Some(())
    }

    fn lower(&mut self, t: u32, bytes: u64) -> Option<()> {
        let tracker = self.trackers.get_mut(&t)?;
        tracker.reservation -= bytes;
        if let Some(parent) = tracker.parent {
            self.trackers.get_mut(&parent)?.children -= bytes;
        }
        Some(())
    }

    // Grows the tracker, and each one above by what its unused bytes don't cover.
    fn grow(&mut self, t: u32, bytes: u64) -> Option<()> {
        let mut steps = [(0, 0); 3];
        let mut count = 0;
        let mut at = Some((t, bytes));
        while let Some((t, bytes)) = at {
            let tracker = self.trackers.get(&t)?;
            if bytes > tracker.limit - tracker.reservation {
                return None;
            }
            steps[count] = (t, bytes);
            count += 1;
            at = match tracker.parent {
                Some(parent) => Some((
                    parent,
                    bytes.saturating_sub(self.trackers.get(&parent)?.unused()),
                )),
                None => None,
            };
        }
        for (t, bytes) in steps[..count].iter().rev() {
            self.raise(*t, *bytes)?;
        }
        Some(())
    }

    fn can_lose(&self, t: u32, bytes: u64) -> bool {
        self.trackers
            .get(&t)
            .is_some_and(|tracker| bytes <= tracker.unused() && tracker.has_room(bytes))
    }

    fn shift(&mut self, maker: u32, from: u32, to: u32, bytes: u64) -> Option<()> {
        let query = self.query_of(maker)?;
        if !self.is_own(maker, from) || !self.is_own(maker, to) || !self.can_lose(from, bytes) {
            return None;
        }
        let tracker = self.trackers.get(&to)?;
        if from != to && to != query && bytes > tracker.limit - tracker.reservation {
            return None;
        }
        if from != to && from != query {
            self.lower(from, bytes)?;
        }
        if from != to && to != query {
            self.raise(to, bytes)?;
        }
        Some(())
    }

    fn close(&mut self, maker: u32, t: u32) -> Option<()> {
        let tracker = self.trackers.get(&t)?;
        if !self.is_own(maker, t)
            || tracker.reservation > 0
            || tracker.under > 0
            || tracker.owned > 0
        {
            return None;
        }
        let parent = tracker.parent?;
        self.trackers.remove(&t);
        self.trackers.get_mut(&parent)?.under -= 1;
        if self.query_of(maker) == Some(t) {
            self.sessions.remove(&maker);
            self.asked.remove(&maker);
        } else if let Some(asked) = self.asked.get_mut(&maker) {
            asked.failures.remove(&t);
        }
        Some(())
    }

    fn add(&mut self, maker: u32, n: [u64; 6]) -> Option<()> {
        let (t, parent) = (n[0] as u32, n[1] as u32);
        if self.trackers.contains_key(&t) {
            return None;
        }
        if parent == 0 {
            if self.sessions.contains_key(&maker) {
                return None;
            }
            let session = Session {
                query: t,
                quota: n[3] as u32,
                lent: 0,
            };
            self.sessions.insert(maker, session);
            self.asked.remove(&maker);
        } else if self.query_of(maker) != Some(parent) {
            return None;
        }
        self.trackers.get_mut(&parent)?.under += 1;
        self.trackers.insert(t, Tracker::new(Some(parent), n[2]));
        Some(())
    }

    fn fail(&mut self, p: u64) -> Option<()> {
        let (session, client) = self.pages.get(&p).map(|page| (page.session, page.client))?;
        if let Some(asked) = self.asked.get_mut(&session) {
            asked.failures.entry(client).or_insert(self.entries);
        }
        Some(())
    }

    // A load ends without its page.
    fn misread(&mut self, maker: u32, p: u64) -> Option<()> {
        let number = self.entries;
        if let Some(asked) = self.asked.get_mut(&maker) {
            asked.reads.insert(p, number);
        }
        self.place(p, Place::Evicted)
    }

    fn refuse(&self, maker: u32, call: &[u8], n: [u64; 6]) -> Option<()> {
        let asked = self.asked.get(&maker)?;
        let a = n[0] as u32;
        let (client, enabled, entry) = match call {
            b"pin" | b"pin_again" => {
                let page = self.page_of(maker, n[0])?;
                if call == b"pin" && asked.reads.get(&n[0]) == Some(&n[1]) {
                    return Some(());
                }
                let here = call == b"pin" && matches!(page.place, Place::Dirty | Place::Flying(_));
                (
                    page.client,
                    here || self.has_room(page.client, self.bytes(page.blocks)),
                    n[1],
                )
            }
            b"create" | b"alloc" => (a, self.has_room(a, self.bytes(n[1] as u32)), n[2]),
            b"give_back" => (a, self.has_room(a, n[1]), n[2]),
            b"move_reservation" if self.is_own(maker, n[1] as u32) => {
                (a, self.has_room(a, n[2]), n[3])
            }
            b"move_buffer" => {
                let buffer = self.buffers.get(&a)?;
                if !self.is_client(maker, buffer.client) {
                    return None;
                }
                (
                    n[1] as u32,
                    self.has_room(n[1] as u32, self.bytes(buffer.blocks)),
                    n[2],
                )
            }
            _ => return None,
        };
        let fits = self.is_client(maker, client)
            && !enabled
            && asked.failures.get(&client) == Some(&entry);
        fits.then_some(())
    }

    fn follow(&mut self, line: &Line) -> Option<()> {
        let maker = line.maker;
        let p = line.n[0];
        let writes = matches!(line.name, b"StartWrite" | b"WriteOk" | b"WriteFailed");
        if !(if line.writer {
            writes && (1000..1008).contains(&maker)
        } else {
            maker < 240
        }) {
            return None;
        }
        if writes {
            return self.write(line.writer, maker, line.name, p);
        }
        match line.name {
            b"Ask" => drop(self.asked.insert(maker, Asked::default())),
            b"AddTracker" => self.add(maker, line.n)?,
            b"CloseTracker" => self.close(maker, p as u32)?,
            b"Increase" if self.is_own(maker, p as u32) => self.grow(p as u32, line.n[1])?,
            b"IncreaseToFit" if self.is_own(maker, p as u32) => {
                let unused = self.trackers.get(&(p as u32))?.unused();
                self.grow(p as u32, line.n[1].saturating_sub(unused))?;
            }
            b"Decrease" if self.is_own(maker, p as u32) && self.can_lose(p as u32, line.n[1]) => {
                let mut at = Some(p as u32);
                while let Some(t) = at {
                    self.lower(t, line.n[1])?;
                    at = self.trackers.get(&t)?.parent;
                }
            }
            b"MoveReservation" => self.shift(maker, p as u32, line.n[1] as u32, line.n[2])?,
            b"Create" => {
                let (c, blocks) = (line.n[1] as u32, line.n[2] as u32);
                if p != self.next_name || p == u64::MAX {
                    return None;
                }
                self.take(maker, c, blocks)?;
                let page = Page {
                    session: maker,
                    client: c,
                    blocks,
                    place: Place::Pinned(1),
                    has_slots: false,
                    version: 0,
                    stamp: 0,
                };
                self.pages.insert(p, page);
                self.next_name += 1;
            }
            b"Alloc" => {
                let (c, blocks) = (line.n[1] as u32, line.n[2] as u32);
                if self.buffers.contains_key(&(p as u32)) {
                    return None;
                }
                self.take(maker, c, blocks)?;
                self.buffers.insert(p as u32, Buffer { client: c, blocks });
            }
            b"Free" => {
                let Buffer { client, blocks } = *self.buffers.get(&(p as u32))?;
                if !self.is_client(maker, client) {
                    return None;
                }
                self.buffers.remove(&(p as u32));
                self.unload(client, blocks)?;
                self.free += self.bytes(blocks);
            }
            b"MoveBuffer" => {
                let Buffer { client, blocks } = *self.buffers.get(&(p as u32))?;
                let to = line.n[1] as u32;
                let own = self.is_client(maker, client) && self.is_client(maker, to);
                if !own || client == to || !self.has_room(to, self.bytes(blocks)) {
                    return None;
                }
                self.unload(client, blocks)?;
                self.load(to, blocks)?;
                self.buffers.insert(p as u32, Buffer { client: to, blocks });
            }
            b"Evict" => {
                if *self.clean.first_key_value()?.1 != p {
                    return None;
                }
                self.place(p, Place::Evicted)?;
            }
            b"Refused" => self.refuse(maker, line.call, line.n)?,
            name => self.change(maker, name, p, line.n)?,
        }
        Some(())
    }

    fn take(&mut self, maker: u32, c: u32, blocks: u32) -> Option<()> {
        let bytes = self.bytes(blocks);
        if !self.is_client(maker, c) || !self.has_room(c, bytes) || bytes > self.free {
            return None;
        }
        self.free -= bytes;
        self.load(c, blocks)
    }

    fn write(&mut self, writer: bool, maker: u32, name: &[u8], p: u64) -> Option<()> {
        let page = self.pages.get_mut(&p)?;
        if name == b"StartWrite" {
            let newest = *self.trackers.get(&page.client)?.dirty.last_key_value()?.1;
            if newest != p || (!writer && page.session != maker) {
                return None;
            }
            page.version = self.entries;
            return self.place(p, Place::Flying(maker));
        }
        if page.place != Place::Flying(maker) {
            return None;
        }
        if name == b"WriteOk" {
            return self.place(p, Place::Clean);
        }
        self.fail(p)?;
        self.place(p, Place::Dirty)
    }

    // What a session does to one of its pages.
    fn change(&mut self, maker: u32, name: &[u8], p: u64, n: [u64; 6]) -> Option<()> {
        let page = self.page_of(maker, p)?;
        let bytes = u64::from(page.blocks) * self.block_len;
        let room = |pool: &Pool| pool.has_room(page.client, bytes);
        match (name, page.place) {
            (b"PinHere", Place::Dirty) => self.place(p, Place::Pinned(1)),
            (b"PinHere", Place::Clean) if room(self) => self.place(p, Place::Pinned(1)),
            (b"PinLoad", Place::Evicted) if room(self) && bytes <= self.free => {
                self.place(p, Place::Loading)
            }
            (b"ReadOk", Place::Loading) => self.place(p, Place::Pinned(1)),
            (b"ReadFailed", Place::Loading) => {
                self.fail(p)?;
                self.misread(maker, p)
            }
            (b"ReadStale", Place::Loading) => {
                let wanted =
                    n[1] == page.version && n[2] < u64::from(page.blocks) && n[..3] != n[3..];
                if wanted { self.misread(maker, p) } else { None }
            }
            (b"PinAgain", Place::Pinned(count)) if room(self) => {
                self.place(p, Place::Pinned(count + 1))
            }
            (b"UnpinOnce", Place::Pinned(count)) if count > 1 => {
                self.place(p, Place::Pinned(count - 1))
            }
            (b"Unpin", Place::Pinned(1)) => {
                if !page.has_slots {
                    let blocks = u64::from(page.blocks);
                    let session = self.sessions.get_mut(&maker)?;
                    if blocks > u64::from(session.quota) - session.lent {
                        return None;
                    }
                    session.lent += blocks;
                    self.pages.get_mut(&p)?.has_slots = true;
                }
                self.place(p, Place::Dirty)
            }
            (b"UnpinRefused", Place::Pinned(1)) if !page.has_slots => {
                let session = self.sessions.get(&maker)?;
                (u64::from(session.quota) - session.lent < u64::from(page.blocks)).then_some(())
            }
            (b"Extract", Place::Pinned(1)) if !self.buffers.contains_key(&(n[1] as u32)) => {
                let (client, blocks) = (page.client, page.blocks);
                self.end(p, true)?;
                self.buffers.insert(n[1] as u32, Buffer { client, blocks });
                self.load(client, blocks)
            }
            (b"Destroy", Place::Flying(_) | Place::Loading) => None,
            (b"Destroy", _) => self.end(p, false),
            _ => None,
        }
    }
}

fn judge(text: &[u8]) -> Answer {
    if text.len() > 1 << 28 {
        return Answer::Large;
    }
    let Some((mut pool, mut rest)) = opening_at(text) else {
        return Answer::Syntax(1);
    };
    while let Some((line, behind)) = line_at(rest) {
        if pool.follow(&line).is_none() {
            return Answer::Illegal(pool.entries);
        }
        pool.entries += 1;
        rest = behind;
    }
    match rest {
        b"end\n" => Answer::Entries(pool.entries, true),
        b"cut\n" => Answer::Entries(pool.entries, false),
        _ => Answer::Syntax(pool.entries + 2),
    }
}

fn tell(answer: Answer) {
    match answer {
        Answer::Entries(count, true) => println!("entries {count} whole"),
        Answer::Entries(count, false) => println!("entries {count} cut"),
        Answer::Large => println!("large"),
        Answer::Syntax(line) => println!("syntax {line}"),
        Answer::Illegal(entry) => println!("illegal {entry}"),
    }
}

fn main() -> std::io::Result<()> {
    let words: Vec<String> = std::env::args().skip(1).collect();
    match words.as_slice() {
        [first, path] if first == "time" => {
            let text = std::fs::read(path)?;
            let start = Instant::now();
            tell(judge(&text));
            println!("{} bytes, {} ms", text.len(), start.elapsed().as_millis());
        }
        paths => {
            for path in paths {
                tell(judge(&std::fs::read(path)?));
            }
        }
    }
    Ok(())
}
