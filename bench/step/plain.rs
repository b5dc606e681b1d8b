// The same commands read by a parser as one would write it in plain Rust: a cursor over the bytes, slices for what varies in length.
#![allow(dead_code)]

pub struct Zone {
    east: u64,
    extra: u64,
    begins: (u8, u8),
    ends: (u8, u8),
    minute: u64,
}

pub struct Event<'a> {
    title: &'a [u8],
    zone: u8,
    first: u64,
    minute: u64,
    long: u64,
    busy: bool,
    kind: u8,
    step: u64,
    weekdays: u8,
    times: u64,
    last: u64,
    left_out: &'a [u8],
}

pub enum Command<'a> {
    Join(&'a [u8]),
    Zone(u8, Zone),
    Put(u64, Event<'a>),
    Change(u64, u64, Event<'a>),
    Drop(u64, u64),
    Skip(u64, u64, u64),
    List(u64, u64, u64),
    Busy(&'a [u8], u64, u64),
    Free(&'a [u8], u64, u64, u64),
    Next(u64, u64),
    Shown(u64, u64),
}

struct Cursor<'a>(&'a [u8]);

impl<'a> Cursor<'a> {
    fn take(&mut self, n: usize) -> Option<&'a [u8]> {
        if self.0.len() < n {
            return None;
        }
        let (front, rest) = self.0.split_at(n);
        self.0 = rest;
        Some(front)
    }

    fn wide(&mut self, range: std::ops::RangeInclusive<u64>) -> Option<u64> {
        let n = u64::from_be_bytes(self.take(8)?.try_into().ok()?);
        range.contains(&n).then_some(n)
    }

    fn narrow(&mut self, range: std::ops::RangeInclusive<u8>) -> Option<u8> {
        let b = self.take(1)?[0];
        range.contains(&b).then_some(b)
    }

    fn text(&mut self, range: std::ops::RangeInclusive<u64>) -> Option<&'a [u8]> {
        let n = self.wide(range)?;
        self.take(n as usize)
    }

    fn row(&mut self, count: std::ops::RangeInclusive<u64>, low: u64, high: u64) -> Option<&'a [u8]> {
        let n = self.wide(count)?;
        let row = self.take(8 * n as usize)?;
        let mut least = low;
        for eight in row.chunks_exact(8) {
            let n = u64::from_be_bytes(eight.try_into().ok()?);
            if n < least || n > high {
                return None;
            }
            least = n + 1;
        }
        Some(row)
    }

    fn stretch(&mut self) -> Option<(u64, u64)> {
        let from = self.wide(15840..=105119999)?;
        let to = self.wide(15840..=105119999)?;
        (from < to && to - from <= 576000).then_some((from, to))
    }

    fn zone(&mut self) -> Option<Zone> {
        let east = self.wide(0..=1560)?;
        let extra = self.wide(0..=120)?;
        let begins = (self.narrow(1..=12)?, self.narrow(1..=5)?);
        let ends = (self.narrow(1..=12)?, self.narrow(1..=5)?);
        let minute = self.wide(0..=1439)?;
        (begins.0 != ends.0 || extra == 0).then_some(Zone { east, extra, begins, ends, minute })
    }

    fn event(&mut self) -> Option<Event<'a>> {
        let title = self.text(0..=255)?;
        let zone = self.narrow(0..=15)?;
        let first = self.wide(11..=72999)?;
        let minute = self.wide(0..=1439)?;
        let long = self.wide(1..=10080)?;
        let busy = self.narrow(0..=1)? == 1;
        let kind = self.narrow(0..=6)?;
        let step = self.wide(1..=1000)?;
        let weekdays = self.row(0..=7, 0, 6)?.chunks_exact(8).fold(0, |on, day| on | 1 << day[7]);
        let times = self.wide(0..=10000)?;
        let last = self.wide(11..=72999)?;
        let left_out = self.row(0..=1000, 11, 72999)?;
        Some(Event { title, zone, first, minute, long, busy, kind, step, weekdays, times, last, left_out })
    }
}

pub fn read(bytes: &[u8]) -> Option<Command<'_>> {
    let (kind, rest) = bytes.split_first()?;
    let mut c = Cursor(rest);
    let command = match kind {
        1 => Command::Join(c.text(1..=64)?),
        2 => Command::Zone(c.narrow(0..=15)?, c.zone()?),
        3 => Command::Put(c.wide(0..=255)?, c.event()?),
        4 => Command::Change(c.wide(0..=255)?, c.wide(0..=u64::MAX)?, c.event()?),
        5 => Command::Drop(c.wide(0..=255)?, c.wide(0..=u64::MAX)?),
        6 => Command::Skip(c.wide(0..=255)?, c.wide(0..=u64::MAX)?, c.wide(11..=72999)?),
        7 => {
            let person = c.wide(0..=255)?;
            let (from, to) = c.stretch()?;
            Command::List(person, from, to)
        }
        8 => {
            let people = c.row(1..=16, 0, 255)?;
            let (from, to) = c.stretch()?;
            Command::Busy(people, from, to)
        }
        9 => {
            let people = c.row(1..=16, 0, 255)?;
            let minutes = c.wide(1..=10080)?;
            let (from, to) = c.stretch()?;
            Command::Free(people, minutes, from, to)
        }
        10 => Command::Next(c.wide(0..=255)?, c.wide(15840..=105119999)?),
        11 => Command::Shown(c.wide(0..=255)?, c.wide(0..=u64::MAX)?),
        _ => return None,
    };
    c.0.is_empty().then_some(command)
}
