//! Rows of rooms.script. README.md has the format.

/// What a lent buffer holds before.
const FILLER: u8 = 170;

/// No input and no buffer of the script is longer.
const MOST_INPUT: usize = 65_600;
pub const MOST_ROOM: usize = 786_432;

#[derive(Default)]
pub struct RoomScript {
    pub rows: Vec<u8>,
    /// How many bytes the input has.
    pub length: usize,
}

impl RoomScript {
    fn row(&mut self, word: &str, text: &[u8]) {
        assert!(!text.contains(&b'\n'));
        self.rows.extend(word.as_bytes());
        self.rows.push(b' ');
        self.rows.extend(text);
        self.rows.push(b'\n');
    }

    pub fn remark(&mut self, remark: &str) {
        self.row("#", remark.as_bytes());
    }

    pub fn clear(&mut self) {
        self.rows.extend(b"clear\n");
        self.length = 0;
    }

    pub fn line(&mut self, text: &[u8]) {
        self.row("line", text);
        self.grow(text.len() + 1);
    }

    pub fn part(&mut self, text: &[u8]) {
        self.row("part", text);
        self.grow(text.len());
    }

    pub fn ends(&mut self, count: usize) {
        self.row("ends", count.to_string().as_bytes());
        self.grow(count);
    }

    /// Ends up to this length of the input.
    pub fn ends_up_to(&mut self, length: usize) {
        self.ends(length - self.length);
    }

    fn grow(&mut self, more: usize) {
        self.length += more;
        assert!(self.length <= MOST_INPUT);
    }

    pub fn room(&mut self, n: u64) {
        self.row("room", n.to_string().as_bytes());
    }

    pub fn list(&mut self, room: usize) {
        self.list_over(room, FILLER);
    }

    /// The same over other bytes.
    pub fn list_over(&mut self, room: usize, byte: u8) {
        assert!(room <= MOST_ROOM);
        self.row("list", format!("{room} {byte}").as_bytes());
    }

    /// Of a listing of this length: every room up to two bytes more.
    pub fn list_into_all(&mut self, length: usize) {
        (0..=length + 2).for_each(|room| self.list(room));
    }

    /// Of a listing of this length: a byte less, exactly, a byte more.
    pub fn list_around(&mut self, length: usize) {
        (length - 1..=length + 1).for_each(|room| self.list(room));
    }
}
