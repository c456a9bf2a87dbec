//! A list of events in one piece of memory, each with the replica at which it happens.

#[derive(Clone, Default)]
pub struct Script {
    bytes: Vec<u8>,
    /// For each event its replica, and where its bytes end.
    events: Vec<(usize, usize)>,
}

impl Script {
    pub fn push(&mut self, replica: usize, event: &[u8]) {
        self.bytes.extend_from_slice(event);
        self.events.push((replica, self.bytes.len()));
    }

    pub fn len(&self) -> usize {
        self.events.len()
    }

    pub fn iter(&self) -> impl Iterator<Item = (usize, &[u8])> {
        let mut start = 0;
        self.events.iter().map(move |&(replica, end)| {
            let event = &self.bytes[start..end];
            start = end;
            (replica, event)
        })
    }

    /// The script without the `count` events from the `first` on.
    pub fn without(&self, first: usize, count: usize) -> Script {
        let mut rest = Script::default();
        for (index, (replica, event)) in self.iter().enumerate() {
            if index < first || index >= first + count {
                rest.push(replica, event);
            }
        }
        rest
    }

    pub fn prefix(&self, length: usize) -> Script {
        self.without(length, self.len() - length)
    }
}

#[cfg(test)]
mod tests {
    use super::*;

    #[test]
    fn events_come_out_as_they_went_in() {
        let mut script = Script::default();
        for (replica, event) in [(1, &b"one"[..]), (0, b""), (2, b"three")] {
            script.push(replica, event);
        }
        let rest = script.without(0, 1);
        assert_eq!(
            rest.iter().collect::<Vec<_>>(),
            [(0, &b""[..]), (2, b"three")]
        );
        let first = script.prefix(1);
        assert_eq!(first.iter().collect::<Vec<_>>(), [(1, &b"one"[..])]);
        assert_eq!(script.len(), 3);
    }
}
