//! The search for the smallest text that still shows a difference.

/// Drops lines, shortens numbers and drops bytes as long as `differs` stays true, within `tries` questions.
pub fn smallest(text: &[u8], tries: usize, differs: &mut dyn FnMut(&[u8]) -> bool) -> Vec<u8> {
    let mut search = Search { best: text.to_vec(), tries, differs };
    loop {
        let before = search.best.clone();
        search.drop_lines();
        search.simplify_fields();
        if search.best.len() < 200 {
            search.drop_bytes();
        }
        if search.best == before || search.tries == 0 {
            return search.best;
        }
    }
}

struct Search<'a> {
    best: Vec<u8>,
    tries: usize,
    differs: &'a mut dyn FnMut(&[u8]) -> bool,
}

impl Search<'_> {
    fn offer(&mut self, candidate: Vec<u8>) -> bool {
        if self.tries == 0 || candidate == self.best {
            return false;
        }
        self.tries -= 1;
        let taken = (self.differs)(&candidate);
        if taken {
            self.best = candidate;
        }
        taken
    }

    fn lines(&self) -> Vec<Vec<u8>> {
        self.best.split_inclusive(|byte| *byte == b'\n').map(<[u8]>::to_vec).collect()
    }

    /// Blocks of half the lines first, then shorter ones, down to single lines.
    fn drop_lines(&mut self) {
        let mut block = self.lines().len().div_ceil(2);
        while block > 0 {
            let mut place = 0;
            while place < self.lines().len() {
                let mut lines = self.lines();
                let end = (place + block).min(lines.len());
                lines.drain(place..end);
                if !self.offer(lines.concat()) {
                    place += block;
                }
            }
            block /= 2;
        }
    }

    fn simplify_fields(&mut self) {
        for line in 0..self.lines().len() {
            let fields = self.lines()[line].split(|byte| *byte == b'\t').count();
            for field in 1..fields {
                while self.simplify_field(line, field) {}
            }
        }
    }

    /// One simpler spelling of one field, if any still shows the difference.
    fn simplify_field(&mut self, line: usize, field: usize) -> bool {
        let lines = self.lines();
        let Some(bytes) = lines.get(line) else { return false };
        let mut fields: Vec<Vec<u8>> = bytes.split(|byte| *byte == b'\t').map(<[u8]>::to_vec).collect();
        let Some(old) = fields.get(field).cloned() else { return false };
        let (old, end) = match old.strip_suffix(b"\n") {
            Some(bare) => (bare.to_vec(), b"\n".to_vec()),
            None => (old, Vec::new()),
        };
        for simpler in simpler_spellings(&old) {
            fields[field] = [simpler, end.clone()].concat();
            let mut changed = lines.clone();
            changed[line] = fields.join(&b'\t');
            if self.offer(changed.concat()) {
                return true;
            }
        }
        false
    }

    fn drop_bytes(&mut self) {
        let mut place = 0;
        while place < self.best.len() {
            let mut bytes = self.best.clone();
            bytes.remove(place);
            if !self.offer(bytes) {
                place += 1;
            }
        }
    }
}

/// Spellings shorter than the old one, or as long and lower, so that the search comes to an end.
fn simpler_spellings(old: &[u8]) -> Vec<Vec<u8>> {
    let mut all: Vec<Vec<u8>> = ["0", "1", "2", "1000", "1000000"].map(|s| s.as_bytes().to_vec()).to_vec();
    all.push(old[..old.len() / 2].to_vec());
    all.push(old[..old.len().saturating_sub(1)].to_vec());
    let kept = |(place, byte): (usize, &u8)| if place == 0 || !byte.is_ascii_digit() { *byte } else { b'0' };
    all.push(old.iter().enumerate().map(kept).collect());
    let number: Option<u64> = std::str::from_utf8(old).ok().and_then(|text| text.parse().ok());
    if let Some(number) = number {
        all.push((number / 2).to_string().into_bytes());
        all.push(number.saturating_sub(1).to_string().into_bytes());
    }
    let simpler = |new: &[u8]| new.len() < old.len() || (new.len() == old.len() && new < old);
    all.retain(|new| !new.is_empty() && simpler(new));
    all
}
