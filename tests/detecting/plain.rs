// The races of a trace, by a plain program that nothing is proved of: `plain FILE [--sure] [--group]` prints what `treadmarks races` prints.
//
// It has the short cuts of its kind. A clock has an entry for each place; a thread that is forked takes over a place whose thread its forker has
// joined. The entry of a clock's own thread stands apart, and clocks share the others until one changes. What is learned from a lock is skipped where
// its last release is known and knew all. A variable's last access stands for all where it knew of all; its last write likewise, for a read.
// A thread's last accesses of a variable are found by a table. It wants traces in which no thread acts once it was joined.
use std::collections::HashMap;
use std::fs::File;
use std::io::{self, BufRead, BufReader, BufWriter, Write};
use std::rc::Rc;

#[derive(Default)]
struct Names {
    ids: HashMap<Box<[u8]>, u32>,
    texts: Vec<Box<[u8]>>,
}

impl Names {
    fn id(&mut self, text: &[u8]) -> u32 {
        if let Some(id) = self.ids.get(text) {
            return *id;
        }
        let id = self.texts.len() as u32;
        self.texts.push(text.into());
        self.ids.insert(text.into(), id);
        id
    }
}

/// What is known of each place: one more than the position of the last event there, or 0.
#[derive(Clone, Default)]
struct Clock {
    place: u32,
    own: u64,
    others: Rc<Vec<u64>>,
}

impl Clock {
    fn of(&self, place: u32) -> u64 {
        let other = self.others.get(place as usize).copied().unwrap_or(0);
        if place == self.place { other.max(self.own) } else { other }
    }

    fn raise(&mut self, place: u32, value: u64) {
        if self.of(place) < value {
            let others = Rc::make_mut(&mut self.others);
            if others.len() <= place as usize {
                others.resize(place as usize + 1, 0);
            }
            others[place as usize] = value;
        }
    }

    fn join(&mut self, more: &Clock) {
        if !Rc::ptr_eq(&self.others, &more.others) {
            let covers = |one: &[u64], two: &[u64]| two.len() <= one.len() && two.iter().zip(one).all(|(b, a)| b <= a);
            if covers(&more.others, &self.others) {
                self.others = more.others.clone();
            } else if !covers(&self.others, &more.others) {
                let others = Rc::make_mut(&mut self.others);
                if others.len() < more.others.len() {
                    others.resize(more.others.len(), 0);
                }
                for (mine, its) in others.iter_mut().zip(more.others.iter()) {
                    *mine = (*mine).max(*its);
                }
            }
        }
        if more.own > 0 {
            self.raise(more.place, more.own);
        }
    }
}

/// What a lock hands on; `one` if it is what its last release knew.
#[derive(Default)]
struct Lock {
    clock: Clock,
    one: bool,
    holder: Option<(u32, u64, u64)>,
}

#[derive(Default)]
struct Barrier {
    open: Clock,
    cycle: u64,
    closed: HashMap<u64, Rc<Clock>>,
    /// Of each thread the cycle of its last arrival, and the line at which it waits.
    of: HashMap<u32, (u64, Option<u64>)>,
}

#[derive(Default)]
struct Thread {
    clock: Clock,
    acts: bool,
    free: Vec<u32>,
    known: Option<u64>,
    joined: Option<u64>,
    waits: Option<(u32, u64)>,
}

#[derive(Clone, Copy)]
struct Access {
    position: u64,
    line: u64,
    place: u32,
    location: u32,
    write: bool,
}

struct Last {
    thread: u32,
    access: Access,
    write: Option<Access>,
}

#[derive(Default)]
struct Variable {
    lasts: Vec<Last>,
    table: HashMap<u32, u32>,
    writers: u32,
    /// The last access, if it knew of all before it; the last write, if it knew of all writes.
    cover: Option<(u32, u64)>,
    write_cover: Option<(u32, u64)>,
    written: Option<Clock>,
}

#[derive(Default)]
struct Detector {
    threads: Vec<Thread>,
    places: u32,
    locks: Vec<Lock>,
    barriers: Vec<Barrier>,
    variables: Vec<Variable>,
    ill: Option<(u64, String)>,
}

fn at<T: Default>(all: &mut Vec<T>, index: u32) -> &mut T {
    if all.len() <= index as usize {
        all.resize_with(index as usize + 1, T::default);
    }
    &mut all[index as usize]
}

impl Detector {
    fn begin(&mut self, thread: u32) {
        let places = &mut self.places;
        let it = at(&mut self.threads, thread);
        if !it.acts {
            it.acts = true;
            it.clock = Clock { place: *places, own: 0, others: it.clock.others.clone() };
            *places += 1;
        }
    }

    fn join(&mut self, thread: u32, more: &Clock) {
        self.threads[thread as usize].clock.join(more);
    }

    fn receive(&mut self, thread: u32, op: &[u8], target: u32) {
        match op {
            b"acq" | b"wait" => {
                let lock = at(&mut self.locks, target);
                let clock = &mut self.threads[thread as usize].clock;
                if lock.clock.own > 0 && !(lock.one && clock.of(lock.clock.place) >= lock.clock.own) {
                    clock.join(&lock.clock);
                }
            }
            b"join" => {
                let more = at(&mut self.threads, target).clock.clone();
                self.join(thread, &more);
                let it = &mut self.threads[target as usize];
                if it.acts {
                    it.clock.others = Rc::default();
                    let place = it.clock.place;
                    self.threads[thread as usize].free.push(place);
                }
            }
            b"depart" => {
                let barrier = at(&mut self.barriers, target);
                if let Some((cycle, _)) = barrier.of.get(&thread).copied() {
                    if cycle == barrier.cycle {
                        let open = std::mem::take(&mut barrier.open);
                        barrier.closed.insert(cycle, Rc::new(open));
                        barrier.closed.retain(|it, _| *it + 2 > cycle);
                        barrier.cycle += 1;
                    }
                    let more = barrier.closed[&cycle].clone();
                    self.join(thread, &more);
                }
            }
            _ => {}
        }
    }

    fn give(&mut self, thread: u32, op: &[u8], target: u32) {
        match op {
            b"rel" | b"post" => {
                let clock = self.threads[thread as usize].clock.clone();
                let lock = at(&mut self.locks, target);
                let knows = lock.clock.own == 0 || lock.one && clock.of(lock.clock.place) >= lock.clock.own;
                if knows {
                    lock.clock = clock;
                    lock.one = true;
                } else {
                    let before = std::mem::replace(&mut lock.clock, clock);
                    lock.clock.join(&before);
                    lock.one = false;
                }
            }
            b"arrive" => {
                let clock = self.threads[thread as usize].clock.clone();
                let barrier = at(&mut self.barriers, target);
                barrier.open.join(&clock);
                barrier.of.insert(thread, (barrier.cycle, None));
            }
            b"fork" => {
                let from = &mut self.threads[thread as usize];
                let (clock, place) = (from.clock.clone(), if self.threads.get(target as usize).is_none_or(|it| !it.acts) { self.threads[thread as usize].free.pop() } else { None });
                let it = at(&mut self.threads, target);
                if it.acts {
                    it.clock.join(&clock);
                } else {
                    it.acts = true;
                    let (others, own) = (clock.others.clone(), (clock.place, clock.own));
                    let place = place.unwrap_or_else(|| { self.places += 1; self.places - 1 });
                    it.clock = Clock { place, own: 0, others };
                    it.clock.raise(own.0, own.1);
                }
            }
            _ => {}
        }
    }

    // Adds to `told` the last accesses that race with this one, and notes it.
    fn access(&mut self, thread: u32, variable: u32, now: Access, known: &Clock, told: &mut Vec<(u32, Access)>) {
        let it = at(&mut self.variables, variable);
        let knows = |cover: Option<(u32, u64)>| cover.is_some_and(|(place, position)| position < known.of(place));
        let (all, writes) = (knows(it.cover), knows(it.write_cover));
        if !all && !(writes && !now.write) && (now.write || it.writers > 0) {
            for last in &it.lasts {
                let found = if now.write { Some(last.access) } else { last.write };
                if let Some(found) = found.filter(|found| last.thread != thread && known.of(found.place) <= found.position) {
                    told.push((last.thread, found));
                }
            }
            told.sort_unstable_by_key(|it| it.0);
        }
        let first = it.lasts.is_empty();
        let clear = told.is_empty();
        it.cover = (first || all || now.write && clear).then_some((now.place, now.position));
        if now.write {
            it.write_cover = (it.writers == 0 || writes || clear).then_some((now.place, now.position));
        }
        let index = if it.lasts.len() <= 8 { it.lasts.iter().position(|it| it.thread == thread) } else { it.table.get(&thread).map(|it| *it as usize) };
        let write = now.write.then_some(now);
        match index {
            Some(index) => {
                let last = &mut it.lasts[index];
                it.writers += u32::from(now.write && last.write.is_none());
                last.access = now;
                last.write = write.or(last.write);
            }
            None => {
                it.lasts.push(Last { thread, access: now, write });
                it.writers += u32::from(now.write);
                if it.lasts.len() == 9 {
                    it.table = it.lasts.iter().enumerate().map(|(index, it)| (it.thread, index as u32)).collect();
                } else if it.lasts.len() > 9 {
                    it.table.insert(thread, it.lasts.len() as u32 - 1);
                }
            }
        }
    }

    // The reason why no program would give this event, if there is one, as far as the kinds of traces here need it.
    fn fault(&mut self, thread: u32, op: &[u8], target: u32, line: u64) -> Option<String> {
        let it = at(&mut self.threads, thread);
        it.known.get_or_insert(line);
        if let Some(joined) = it.joined {
            return Some(format!("thread {thread} was joined at line {joined}"));
        }
        match (op, it.waits) {
            (b"depart", Some((barrier, _))) if barrier == target => it.waits = None,
            (_, Some((barrier, since))) => return Some(format!("thread {thread} waits at barrier {barrier} since line {since}")),
            (b"depart", None) => return Some(format!("thread {thread} has not arrived at barrier {target}")),
            (b"arrive", None) => it.waits = Some((target, line)),
            _ => {}
        }
        match op {
            b"acq" => {
                let lock = at(&mut self.locks, target);
                match &mut lock.holder {
                    Some((holder, since, _)) if *holder != thread => return Some(format!("lock {target} is held by thread {holder} since line {since}")),
                    Some((_, _, times)) => *times += 1,
                    None => lock.holder = Some((thread, line, 1)),
                }
            }
            b"rel" => {
                let lock = at(&mut self.locks, target);
                match &mut lock.holder {
                    Some((holder, _, times)) if *holder == thread => {
                        *times -= 1;
                        if *times == 0 {
                            lock.holder = None;
                        }
                    }
                    _ => return Some(format!("lock {target} is not held by thread {thread}")),
                }
            }
            b"fork" => {
                let it = at(&mut self.threads, target);
                if let Some(since) = it.known {
                    return Some(format!("thread {target} is known since line {since}"));
                }
                it.known = Some(line);
            }
            b"join" => {
                at(&mut self.threads, target).joined.get_or_insert(line);
            }
            _ => {}
        }
        None
    }
}

type Group = (u32, bool, u32, bool);

fn main() -> io::Result<()> {
    let words: Vec<String> = std::env::args().collect();
    let (sure, group) = (words.iter().any(|it| it == "--sure"), words.iter().any(|it| it == "--group"));
    let mut reader = BufReader::with_capacity(1 << 16, File::open(&words[1])?);
    let mut out = BufWriter::with_capacity(1 << 16, io::stdout().lock());
    let (mut threads, mut variables, mut locks, mut barriers, mut locations) = (Names::default(), Names::default(), Names::default(), Names::default(), Names::default());
    locations.id(b"-");
    let mut detector = Detector::default();
    let (mut line, mut position, mut races) = (0, 0, 0u64);
    let mut told: Vec<(u32, Access)> = Vec::new();
    let mut groups: HashMap<Group, usize> = HashMap::new();
    let mut listed: Vec<(Group, u64, u32, u64, u64)> = Vec::new();
    let mut text = Vec::new();
    while { text.clear(); reader.read_until(b'\n', &mut text)? } > 0 {
        line += 1;
        let end = text.len() - usize::from(text.ends_with(b"\n"));
        if end == 0 || text[0] == b'#' {
            continue;
        }
        let mut parts = text[..end].split(|it| *it == b'|');
        let (name, deed, place) = (parts.next().unwrap_or(b""), parts.next().unwrap_or(b""), parts.next().unwrap_or(b""));
        let open = deed.iter().position(|it| *it == b'(').expect("an operation with a target");
        let (op, target) = (&deed[..open], &deed[open + 1..deed.len() - 1]);
        let thread = threads.id(name);
        let target = match op {
            b"r" | b"w" => variables.id(target),
            b"acq" | b"rel" | b"post" | b"wait" => locks.id(target),
            b"fork" | b"join" => threads.id(target),
            _ => barriers.id(target),
        };
        detector.begin(thread);
        if detector.ill.is_none() {
            detector.ill = detector.fault(thread, op, target, line).map(|why| (line, why));
        }
        detector.receive(thread, op, target);
        let asked = sure.then(|| detector.threads[thread as usize].clock.clone());
        let is_access = op == b"r" || op == b"w";
        if sure && op == b"r" {
            if let Some(more) = at(&mut detector.variables, target).written.clone() {
                let clock = &mut detector.threads[thread as usize].clock;
                if clock.of(more.place) < more.own || !Rc::ptr_eq(&clock.others, &more.others) {
                    clock.join(&more);
                }
            }
        }
        let own = &mut detector.threads[thread as usize].clock;
        own.own = position + 1;
        let place_of = own.place;
        if is_access {
            let known = asked.unwrap_or_else(|| own.clone());
            let location = if place.is_empty() { 0 } else { locations.id(place) };
            let now = Access { position, line, place: place_of, location, write: op == b"w" };
            told.clear();
            detector.access(thread, target, now, &known, &mut told);
            if sure && now.write {
                detector.variables[target as usize].written = Some(detector.threads[thread as usize].clock.clone());
            }
            let kind = |write| if write { "write" } else { "read" };
            for (other, access) in &told {
                races += 1;
                if group {
                    let key = (access.location, access.write, now.location, now.write);
                    let next = listed.len();
                    let index = *groups.entry(key).or_insert(next);
                    if index == next {
                        listed.push((key, 0, target, access.line, line));
                    }
                    listed[index].1 += 1;
                    continue;
                }
                out.write_all(b"race ")?;
                out.write_all(&variables.texts[target as usize])?;
                for (lead, who, it) in [(": line", *other, access), (", line", thread, &now)] {
                    write!(out, "{lead} {} ", it.line)?;
                    out.write_all(&threads.texts[who as usize])?;
                    write!(out, " {}", kind(it.write))?;
                    if it.location > 0 {
                        out.write_all(b" at ")?;
                        out.write_all(&locations.texts[it.location as usize])?;
                    }
                }
                out.write_all(b"\n")?;
            }
        }
        detector.give(thread, op, target);
        position += 1;
    }
    for ((first, wrote, second, writes), count, variable, one, other) in &listed {
        let kind = |write: &bool| if *write { "write" } else { "read" };
        let text = |it: u32| String::from_utf8_lossy(&locations.texts[it as usize]).into_owned();
        writeln!(out, "races {} {}, {} {}: {count}, first {} lines {one}, {other}", text(*first), kind(wrote), text(*second), kind(writes), String::from_utf8_lossy(&variables.texts[*variable as usize]))?;
    }
    if let Some((line, why)) = &detector.ill {
        writeln!(out, "not well formed at line {line}: {why}")?;
    }
    writeln!(out, "races {races}, events {position}, threads {}, variables {}, locks {}, barriers {}", threads.texts.len(), variables.texts.len(), locks.texts.len(), barriers.texts.len())
}
