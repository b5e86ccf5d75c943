//! SQLite in memory, with a savepoint for each mark, through its C calls.
//!
//! All choices favour it: a row for each word of 4 bytes, found by its integer key, so that a value needs no blob; every statement prepared once;
//! no mutex, no checks, exclusive locking; the rows are there before anything is timed.
//!
//! Savepoints are nested, so the oldest cannot be released alone. ADVANCE therefore only counts the marks that are gone. Open savepoints slow
//! every write, so once those gone outnumber the others it goes back to the oldest mark that is left, commits, and plays the writes made since
//! again with new savepoints. Doing so at every ADVANCE is far slower on `deep` and `full`, never doing so slower on `fine` and `small`. Pages
//! of 512 to 4,096 bytes differ by about a tenth; 1,024 is never much behind the best.
use crate::peer::{Peer, Seen};
use crate::workload::Settings;
use std::collections::VecDeque;
use std::ffi::{c_char, c_int, c_void, CStr, CString};
use std::ptr::{null, null_mut};

#[repr(C)]
struct Database {
    opaque: [u8; 0],
}

#[repr(C)]
struct Statement {
    opaque: [u8; 0],
}

extern "C" {
    fn sqlite3_libversion() -> *const c_char;
    fn sqlite3_open_v2(
        name: *const c_char,
        database: *mut *mut Database,
        flags: c_int,
        vfs: *const c_char,
    ) -> c_int;
    fn sqlite3_close(database: *mut Database) -> c_int;
    fn sqlite3_exec(
        database: *mut Database,
        words: *const c_char,
        callback: *const c_void,
        argument: *mut c_void,
        message: *mut *mut c_char,
    ) -> c_int;
    fn sqlite3_prepare_v2(
        database: *mut Database,
        words: *const c_char,
        length: c_int,
        statement: *mut *mut Statement,
        tail: *mut *const c_char,
    ) -> c_int;
    fn sqlite3_bind_int64(statement: *mut Statement, place: c_int, value: i64) -> c_int;
    fn sqlite3_step(statement: *mut Statement) -> c_int;
    fn sqlite3_reset(statement: *mut Statement) -> c_int;
    fn sqlite3_column_int64(statement: *mut Statement, column: c_int) -> i64;
    fn sqlite3_finalize(statement: *mut Statement) -> c_int;
}

const OK: c_int = 0;
const ROW: c_int = 100;
const DONE: c_int = 101;
/// read and write, create, in memory, no mutex
const FLAGS: c_int = 0x2 | 0x4 | 0x80 | 0x8000;

pub fn version() -> String {
    // SAFETY: the library gives a constant string.
    let words = unsafe { CStr::from_ptr(sqlite3_libversion()) };
    words.to_string_lossy().into_owned()
}

/// A prepared statement.
struct Prepared(*mut Statement);

impl Prepared {
    fn new(database: *mut Database, words: &str) -> Prepared {
        let words = CString::new(words).expect("no null byte");
        let mut statement = null_mut();
        // SAFETY: the database is open, the text ends with a null byte, and the place for the statement is ours.
        let code =
            unsafe { sqlite3_prepare_v2(database, words.as_ptr(), -1, &mut statement, null_mut()) };
        assert_eq!(code, OK, "{words:?}");
        Prepared(statement)
    }

    fn bind(&self, values: &[i64]) {
        for (place, value) in values.iter().enumerate() {
            // SAFETY: the statement lives and is reset.
            let code = unsafe { sqlite3_bind_int64(self.0, place as c_int + 1, *value) };
            debug_assert_eq!(code, OK);
        }
    }

    fn run(&self, values: &[i64]) {
        self.bind(values);
        // SAFETY: the statement lives.
        let code = unsafe { sqlite3_step(self.0) };
        assert_eq!(code, DONE);
        // SAFETY: as above.
        unsafe { sqlite3_reset(self.0) };
    }

    fn number(&self, values: &[i64]) -> i64 {
        self.bind(values);
        // SAFETY: the statement lives.
        let code = unsafe { sqlite3_step(self.0) };
        assert_eq!(code, ROW);
        // SAFETY: a row is there, with one column; then the statement is left ready for its next use.
        unsafe {
            let number = sqlite3_column_int64(self.0, 0);
            sqlite3_reset(self.0);
            number
        }
    }
}

impl Drop for Prepared {
    fn drop(&mut self) {
        // SAFETY: the statement is finalized once, before its database is closed.
        unsafe { sqlite3_finalize(self.0) };
    }
}

/// An open database, closed at the end.
struct Open(*mut Database);

impl Open {
    fn run(&self, words: &str) {
        let words = CString::new(words).expect("no null byte");
        // SAFETY: the database is open, the text ends with a null byte, and there is no callback.
        let code = unsafe { sqlite3_exec(self.0, words.as_ptr(), null(), null_mut(), null_mut()) };
        assert_eq!(code, OK, "{words:?}");
    }
}

impl Drop for Open {
    fn drop(&mut self) {
        // SAFETY: all statements are finalized: they stand before the database in `Sqlite`.
        unsafe { sqlite3_close(self.0) };
    }
}

/// The statements of one depth of nesting.
struct Level {
    open: Prepared,
    back: Prepared,
    release: Prepared,
}

/// A write: the word, the value, and the bits of the word that stay.
type Write = (u32, u32, u32);

pub struct Sqlite {
    get: Prepared,
    put: Prepared,
    part: Prepared,
    levels: Vec<Level>,
    /// the writes made after each open savepoint that still counts
    marks: VecDeque<Vec<Write>>,
    /// open savepoints that no longer count
    gone: usize,
    database: Open,
}

impl Sqlite {
    fn store(&self, (word, value, stays): Write) {
        let (word, value) = (i64::from(word), i64::from(value));
        if stays == 0 {
            self.put.run(&[word, value]);
        } else {
            self.part.run(&[word, value, i64::from(stays)]);
        }
    }

    fn savepoint(&mut self, depth: usize) {
        if depth == self.levels.len() {
            let prepared =
                |words: &str| Prepared::new(self.database.0, &format!("{words} s{depth}"));
            self.levels.push(Level {
                open: prepared("SAVEPOINT"),
                back: prepared("ROLLBACK TO"),
                release: prepared("RELEASE"),
            });
        }
        self.levels[depth].open.run(&[]);
    }

    /// Commits what can no longer be taken back, and makes the marks that are left again.
    fn rebuild(&mut self) {
        if !self.marks.is_empty() {
            self.levels[self.gone].back.run(&[]);
        }
        self.levels[0].release.run(&[]);
        self.gone = 0;
        for depth in 0..self.marks.len() {
            self.savepoint(depth);
            for write in &self.marks[depth] {
                self.store(*write);
            }
        }
    }
}

impl Peer for Sqlite {
    const NAME: &'static str = "sqlite";

    fn new(settings: Settings) -> Self {
        let mut database = null_mut();
        // SAFETY: the name ends with a null byte and the place for the database is ours.
        let code = unsafe { sqlite3_open_v2(c":memory:".as_ptr(), &mut database, FLAGS, null()) };
        assert_eq!(code, OK);
        let database = Open(database);
        database.run("PRAGMA page_size = 1024; PRAGMA cache_size = -65536; PRAGMA locking_mode = EXCLUSIVE; PRAGMA temp_store = MEMORY;");
        database.run("CREATE TABLE memory(word INTEGER PRIMARY KEY, value INTEGER NOT NULL);");
        database.run(&format!(
            "WITH RECURSIVE n(i) AS (SELECT 0 UNION ALL SELECT i + 1 FROM n WHERE i + 1 < {}) INSERT INTO memory SELECT i, 0 FROM n;",
            4 * settings.lines
        ));
        let prepared = |words: &str| Prepared::new(database.0, words);
        Sqlite {
            get: prepared("SELECT value FROM memory WHERE word = ?1"),
            put: prepared("UPDATE memory SET value = ?2 WHERE word = ?1"),
            part: prepared("UPDATE memory SET value = (value & ?3) | ?2 WHERE word = ?1"),
            levels: Vec::new(),
            marks: VecDeque::new(),
            gone: 0,
            database,
        }
    }

    fn read(&mut self, width: u32, address: u32) -> Seen {
        let word = self.get.number(&[i64::from(address / 4)]) as u32;
        let above = 32 - 8 * width;
        Seen {
            value: word << (8 * (address % 4)) >> above,
            origin: None,
        }
    }

    fn write(&mut self, width: u32, address: u32, value: u32) {
        let shift = 32 - 8 * width - 8 * (address % 4);
        let bits = u32::MAX >> (32 - 8 * width) << shift;
        let write = (address / 4, value << shift, !bits);
        self.store(write);
        if let Some(writes) = self.marks.back_mut() {
            writes.push(write);
        }
    }

    fn mark(&mut self) {
        self.savepoint(self.gone + self.marks.len());
        self.marks.push_back(Vec::new());
    }

    fn rollback(&mut self, k: u32) {
        let kept = self.marks.len() - k as usize;
        let level = &self.levels[self.gone + kept];
        level.back.run(&[]);
        level.release.run(&[]);
        self.marks.truncate(kept);
    }

    fn advance(&mut self, k: u32) {
        self.marks.drain(..k as usize);
        self.gone += k as usize;
        if self.gone > 32 + 2 * self.marks.len() {
            self.rebuild();
        }
    }
}
