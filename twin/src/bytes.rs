//! The bytes of events and answers: a reader that borrows from the event, and writers that append.

/// The most replicas a cluster can have.
pub const MAX_REPLICAS: usize = 16;

const PUT: u8 = 0;
const GET: u8 = 1;
pub const CAME: u8 = 2;
const HAS: u8 = 3;
const TELL: u8 = 4;

pub const REFUSED: u8 = 0;
pub const PUTS: u8 = 1;
pub const VALUE: u8 = 2;
pub const CLOCK: u8 = 3;

const END: u8 = 0;
const MORE: u8 = 1;
const KEY_AND_VALUE: u8 = 0;

/// A vector clock; counts of replicas beyond the cluster's are 0.
#[derive(Clone, Copy, Debug, Default, PartialEq, Eq)]
pub struct Clock(pub [u32; MAX_REPLICAS]);

impl Clock {
    pub fn sum(&self) -> u64 {
        self.0.iter().map(|&count| u64::from(count)).sum()
    }

    pub fn at_most(&self, other: &Clock) -> bool {
        let beyond = self.0.iter().zip(&other.0).filter(|(own, its)| own > its);
        beyond.count() == 0
    }
}

/// The counts of a clock as they stand in an event, of any length and any size.
#[derive(Clone, Copy, Debug, PartialEq, Eq)]
pub struct RawClock<'a>(&'a [u8]);

impl RawClock<'_> {
    /// The clock, if it has that many counts and each is below 2^32.
    pub fn checked(self, replicas: usize) -> Option<Clock> {
        let entries = self.0.chunks_exact(9);
        if entries.len() != replicas {
            return None;
        }
        let mut clock = Clock::default();
        for (count, entry) in clock.0.iter_mut().zip(entries) {
            *count = u32::try_from(number_at(&entry[1..])).ok()?;
        }
        Some(clock)
    }
}

#[derive(Clone, Copy, Debug, PartialEq, Eq)]
pub struct RawBody<'a> {
    pub key: u64,
    pub value: &'a [u8],
}

#[derive(Clone, Copy, Debug, PartialEq, Eq)]
pub struct RawPut<'a> {
    /// All the bytes of the put. Equal puts have equal bytes.
    pub bytes: &'a [u8],
    pub from: u64,
    pub seen: RawClock<'a>,
    pub body: RawBody<'a>,
}

#[derive(Clone, Copy, Debug, PartialEq, Eq)]
pub enum Event<'a> {
    Put(RawBody<'a>),
    Get { key: u64 },
    Came(RawPut<'a>),
    Has { replica: u64, clock: RawClock<'a> },
    Tell,
}

/// Reads an event, or says at which offset the bytes cease to be one.
pub fn read_event(bytes: &[u8]) -> Result<Event<'_>, usize> {
    let mut reader = Reader { bytes, at: 0 };
    let event = match reader.byte()? {
        PUT => Event::Put(reader.body()?),
        GET => Event::Get {
            key: reader.number()?,
        },
        CAME => Event::Came(reader.put()?),
        HAS => Event::Has {
            replica: reader.number()?,
            clock: reader.clock()?,
        },
        TELL => Event::Tell,
        _ => return Err(0),
    };
    if reader.at < bytes.len() {
        return Err(reader.at);
    }
    Ok(event)
}

struct Reader<'a> {
    bytes: &'a [u8],
    at: usize,
}

impl<'a> Reader<'a> {
    fn byte(&mut self) -> Result<u8, usize> {
        let byte = *self.bytes.get(self.at).ok_or(self.bytes.len())?;
        self.at += 1;
        Ok(byte)
    }

    fn number(&mut self) -> Result<u64, usize> {
        let rest = &self.bytes[self.at..];
        if rest.len() < 8 {
            return Err(self.bytes.len());
        }
        self.at += 8;
        Ok(number_at(rest))
    }

    fn clock(&mut self) -> Result<RawClock<'a>, usize> {
        let start = self.at;
        loop {
            match self.byte()? {
                END => return Ok(RawClock(&self.bytes[start..self.at - 1])),
                MORE => self.number()?,
                _ => return Err(self.at - 1),
            };
        }
    }

    fn body(&mut self) -> Result<RawBody<'a>, usize> {
        if self.byte()? != KEY_AND_VALUE {
            return Err(self.at - 1);
        }
        let key = self.number()?;
        let value = &self.bytes[self.at..];
        self.at = self.bytes.len();
        Ok(RawBody { key, value })
    }

    fn put(&mut self) -> Result<RawPut<'a>, usize> {
        let bytes = &self.bytes[self.at..];
        Ok(RawPut {
            bytes,
            from: self.number()?,
            seen: self.clock()?,
            body: self.body()?,
        })
    }
}

/// The number in the first eight of the bytes.
fn number_at(bytes: &[u8]) -> u64 {
    u64::from_le_bytes(bytes[..8].try_into().expect("eight bytes"))
}

fn write_number(out: &mut Vec<u8>, number: u64) {
    out.extend_from_slice(&number.to_le_bytes());
}

/// Any counts at all as a clock's bytes.
pub fn write_counts(out: &mut Vec<u8>, counts: impl IntoIterator<Item = u64>) {
    for count in counts {
        out.push(MORE);
        write_number(out, count);
    }
    out.push(END);
}

fn write_clock(out: &mut Vec<u8>, clock: &Clock, replicas: usize) {
    const ENTRY: usize = 9;
    let mut entries = [0; ENTRY * MAX_REPLICAS + 1];
    for (entry, &count) in entries.chunks_exact_mut(ENTRY).zip(&clock.0) {
        entry[0] = MORE;
        entry[1..].copy_from_slice(&u64::from(count).to_le_bytes());
    }
    entries[ENTRY * replicas] = END;
    out.extend_from_slice(&entries[..=ENTRY * replicas]);
}

pub fn write_body(out: &mut Vec<u8>, key: u64, value: &[u8]) {
    out.push(KEY_AND_VALUE);
    write_number(out, key);
    out.extend_from_slice(value);
}

pub fn write_refusal(out: &mut Vec<u8>, number: u64, place: usize) {
    out.push(REFUSED);
    write_number(out, number);
    write_number(out, place as u64);
}

/// The answer to an accepted put. Returns where in `out` the bytes of the put stand.
pub fn write_made_put(
    out: &mut Vec<u8>,
    from: usize,
    seen: &Clock,
    replicas: usize,
    body: RawBody,
) -> std::ops::Range<usize> {
    let length = 8 + 9 * replicas + 1 + 9 + body.value.len();
    out.extend_from_slice(&[PUTS, MORE]);
    write_number(out, length as u64);
    let start = out.len();
    write_number(out, from as u64);
    write_clock(out, seen, replicas);
    write_body(out, body.key, body.value);
    let end = out.len();
    out.push(END);
    start..end
}

/// An answer that carries puts, given by their bytes: `tag` is `PUTS` or `VALUE`.
pub fn write_puts<'a>(out: &mut Vec<u8>, tag: u8, puts: impl Iterator<Item = &'a [u8]>) {
    out.push(tag);
    for put in puts {
        out.push(MORE);
        write_number(out, put.len() as u64);
        out.extend_from_slice(put);
    }
    out.push(END);
}

pub fn write_clock_answer(out: &mut Vec<u8>, clock: &Clock, replicas: usize) {
    out.push(CLOCK);
    write_clock(out, clock, replicas);
}

pub fn put_event(key: u64, value: &[u8]) -> Vec<u8> {
    let mut event = vec![PUT];
    write_body(&mut event, key, value);
    event
}

pub fn get_event(key: u64) -> Vec<u8> {
    let mut event = vec![GET];
    write_number(&mut event, key);
    event
}

/// `put` is all the bytes of the put.
pub fn came_event(put: &[u8]) -> Vec<u8> {
    let mut event = vec![CAME];
    event.extend_from_slice(put);
    event
}

/// `clock` is all the bytes of the clock, with its end.
pub fn has_event(replica: u64, clock: &[u8]) -> Vec<u8> {
    let mut event = vec![HAS];
    write_number(&mut event, replica);
    event.extend_from_slice(clock);
    event
}

pub fn tell_event() -> Vec<u8> {
    vec![TELL]
}

pub fn put_bytes(from: u64, seen: &[u64], key: u64, value: &[u8]) -> Vec<u8> {
    let mut put = from.to_le_bytes().to_vec();
    write_counts(&mut put, seen.iter().copied());
    write_body(&mut put, key, value);
    put
}

/// The bytes of each put in an answer with tag `PUTS` or `VALUE`.
pub fn puts_of(answer: &[u8]) -> impl Iterator<Item = &[u8]> {
    let mut rest = &answer[1..];
    std::iter::from_fn(move || {
        if rest[0] == END {
            return None;
        }
        let (put, after) = rest[9..].split_at(number_at(&rest[1..]) as usize);
        rest = after;
        Some(put)
    })
}

#[cfg(test)]
mod tests {
    use super::*;

    #[test]
    fn every_kind_of_event_is_read_as_it_was_written() {
        let put = put_bytes(1, &[3, u64::MAX], 7, b"value");
        let has = has_event(9, &[1, 5, 0, 0, 0, 0, 0, 0, 0, 0]);
        let body = RawBody {
            key: 7,
            value: b"value",
        };
        assert_eq!(read_event(&put_event(7, b"value")), Ok(Event::Put(body)));
        assert_eq!(read_event(&get_event(6)), Ok(Event::Get { key: 6 }));
        assert_eq!(read_event(&tell_event()), Ok(Event::Tell));
        let came = came_event(&put);
        let Ok(Event::Came(read)) = read_event(&came) else {
            panic!("a put that came");
        };
        assert_eq!((read.from, read.body, read.bytes), (1, body, &put[..]));
        assert_eq!(read.seen.checked(2), None);
        let Ok(Event::Has { replica, clock }) = read_event(&has) else {
            panic!("a clock that was told");
        };
        assert_eq!(replica, 9);
        assert_eq!(clock.checked(1).map(|clock| clock.0[0]), Some(5));
        assert_eq!(clock.checked(2), None);
    }

    #[test]
    fn every_cut_is_refused_at_its_end() {
        let header = came_event(&put_bytes(1, &[3, 4], 7, b""));
        let has = has_event(0, &[1, 5, 0, 0, 0, 0, 0, 0, 0, 0]);
        for event in [header, has, get_event(3), put_event(2, b"")] {
            for length in 0..event.len() {
                assert_eq!(read_event(&event[..length]), Err(length));
            }
            assert!(read_event(&event).is_ok());
        }
    }

    #[test]
    fn the_first_wrong_byte_is_the_place() {
        assert_eq!(read_event(&[5]), Err(0));
        assert_eq!(read_event(&[4, 0]), Err(1));
        assert_eq!(read_event(&[0, 1]), Err(1));
        let mut get = get_event(1);
        get.push(0);
        assert_eq!(read_event(&get), Err(9));
        assert_eq!(read_event(&has_event(0, &[2])), Err(9));
        assert_eq!(read_event(&has_event(0, &[0, 0])), Err(10));
        let mut came = came_event(&put_bytes(0, &[1], 0, b""));
        came[19] = 7;
        assert_eq!(read_event(&came), Err(19));
    }

    #[test]
    fn answers_have_the_bytes_of_the_rules() {
        let mut out = Vec::new();
        write_refusal(&mut out, 1, 258);
        assert_eq!(out, [0, 1, 0, 0, 0, 0, 0, 0, 0, 2, 1, 0, 0, 0, 0, 0, 0]);
        out.clear();
        write_puts(&mut out, VALUE, [&b"ab"[..]].into_iter());
        assert_eq!(out, [2, 1, 2, 0, 0, 0, 0, 0, 0, 0, b'a', b'b', 0]);
        assert_eq!(puts_of(&out).collect::<Vec<_>>(), [b"ab"]);
        out.clear();
        write_clock_answer(&mut out, &Clock::default(), 1);
        assert_eq!(out, [3, 1, 0, 0, 0, 0, 0, 0, 0, 0, 0]);
        out.clear();
        let body = RawBody {
            key: 7,
            value: b"v",
        };
        let made = write_made_put(&mut out, 1, &Clock::default(), 2, body);
        assert_eq!(out[made], put_bytes(1, &[0, 0], 7, b"v"));
        assert_eq!(puts_of(&out).count(), 1);
    }
}
