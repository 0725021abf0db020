//! A script of calls on a pool, put together call by call.

/// A text of one data section.
pub fn data(lines: &str) -> String {
    format!("\\begindata\n{lines}")
}

/// A word's place, what is written there, and what stands there otherwise.
pub type Change = (usize, u64, u64);

pub struct Script {
    pub bytes: Vec<u8>,
}

impl Script {
    fn line(&mut self, line: &str) {
        self.bytes.extend_from_slice(line.as_bytes());
        self.bytes.push(b'\n');
    }

    pub fn empty(&mut self) {
        self.line("empty");
    }

    pub fn load(&mut self, label: u32, text: &str) {
        self.line(&format!("load {label} {}", text.len()));
        self.line(text);
    }

    pub fn open(&mut self, label: u32) {
        self.line(&format!("open {label}"));
    }

    pub fn feed(&mut self, part: &str) {
        self.line(&format!("feed {}", part.len()));
        self.line(part);
    }

    pub fn close(&mut self) {
        self.line("close");
    }

    pub fn drop(&mut self) {
        self.line("drop");
    }

    pub fn remove(&mut self, label: u32) {
        self.line(&format!("remove {label}"));
    }

    pub fn clear(&mut self) {
        self.line("clear");
    }

    pub fn fetch(&mut self, room: usize, name: &str) {
        self.line(&format!("fetch {room} {name}"));
    }

    pub fn quoted(&mut self, room: usize, place: usize, name: &str) {
        self.line(&format!("quoted {room} {place} {name}"));
    }

    pub fn totals(&mut self) {
        self.line("totals");
    }

    pub fn word(&mut self, index: usize, word: u64) {
        self.line(&format!("word {index} {word:016X}"));
    }

    pub fn size(&mut self, words: usize) {
        self.line(&format!("size {words}"));
    }

    /// Every call that a damaged pool refuses.
    pub fn ask_all(&mut self) {
        self.totals();
        self.fetch(9, "X");
        self.fetch(0, "");
        self.quoted(9, 1, "X");
        self.quoted(0, 0, "");
        self.load(7, "?");
        self.load(3, &data("X = 1"));
        self.remove(7);
        self.clear();
        self.open(3);
        self.feed("");
        self.close();
        self.drop();
    }

    /// Words that damage the pool, and the words as they were.
    pub fn damage(&mut self, changes: &[Change]) {
        self.write(changes);
        self.ask_all();
        self.restore(changes);
        self.totals();
    }

    pub fn write(&mut self, changes: &[Change]) {
        for (index, word, _) in changes {
            self.word(*index, *word);
        }
    }

    pub fn restore(&mut self, changes: &[Change]) {
        for (index, _, word) in changes {
            self.word(*index, *word);
        }
    }
}
