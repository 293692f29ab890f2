//! The same puts and ordered reads by SQLite, on a table with the same primary key.
use std::ffi::{c_char, c_int, c_void, CString};
use std::ptr::null_mut;

extern "C" {
    fn sqlite3_open(name: *const c_char, db: *mut *mut c_void) -> c_int;
    fn sqlite3_close(db: *mut c_void) -> c_int;
    fn sqlite3_exec(db: *mut c_void, sql: *const c_char, f: *const c_void, arg: *const c_void, error: *const c_void) -> c_int;
    fn sqlite3_prepare_v2(db: *mut c_void, sql: *const c_char, n: c_int, s: *mut *mut c_void, tail: *const c_void) -> c_int;
    fn sqlite3_bind_int64(s: *mut c_void, i: c_int, v: i64) -> c_int;
    fn sqlite3_column_int64(s: *mut c_void, i: c_int) -> i64;
    fn sqlite3_step(s: *mut c_void) -> c_int;
    fn sqlite3_reset(s: *mut c_void) -> c_int;
    fn sqlite3_finalize(s: *mut c_void) -> c_int;
}

const ROW: c_int = 100;
const DONE: c_int = 101;

pub struct Table {
    db: *mut c_void,
    put: *mut c_void,
    list: *mut c_void,
    delete: *mut c_void,
}

impl Table {
    pub fn open(name: &str) -> Table {
        let mut t = Table { db: null_mut(), put: null_mut(), list: null_mut(), delete: null_mut() };
        let name = CString::new(name).unwrap();
        assert_eq!(unsafe { sqlite3_open(name.as_ptr(), &mut t.db) }, 0);
        t.exec("CREATE TABLE calls (tag INTEGER, level INTEGER, second INTEGER, phone INTEGER, minutes INTEGER, PRIMARY KEY (tag, level, second, phone)) WITHOUT ROWID");
        t.put = t.prepare("INSERT INTO calls VALUES (?, ?, ?, ?, ?)");
        t.list = t.prepare("SELECT level, second, phone, minutes FROM calls WHERE tag = ? ORDER BY level, second, phone");
        t.delete = t.prepare("DELETE FROM calls WHERE tag = ? AND level = ? AND second = ? AND phone = ?");
        t
    }

    pub fn exec(&self, sql: &str) {
        let sql = CString::new(sql).unwrap();
        let none = std::ptr::null();
        assert_eq!(unsafe { sqlite3_exec(self.db, sql.as_ptr(), none, none, none) }, 0);
    }

    fn prepare(&self, sql: &str) -> *mut c_void {
        let (sql, mut s) = (CString::new(sql).unwrap(), null_mut());
        let r = unsafe { sqlite3_prepare_v2(self.db, sql.as_ptr(), -1, &mut s, std::ptr::null()) };
        assert_eq!(r, 0);
        s
    }

    fn once(&self, s: *mut c_void, values: &[i64]) {
        unsafe {
            for (i, v) in values.iter().enumerate() {
                sqlite3_bind_int64(s, i as c_int + 1, *v);
            }
            assert_eq!(sqlite3_step(s), DONE);
            sqlite3_reset(s);
        }
    }

    pub fn put(&self, tag: u32, r: cix::Record) {
        self.once(self.put, &[tag as i64, r.level as i64, r.second as i64, r.phone as i64, r.minutes as i64]);
    }

    pub fn delete(&self, tag: u32, r: cix::Record) {
        self.once(self.delete, &[tag as i64, r.level as i64, r.second as i64, r.phone as i64]);
    }

    /// Reads a tag's records in order and adds up their seconds.
    pub fn seconds(&self, tag: u32) -> u64 {
        let mut sum = 0;
        unsafe {
            sqlite3_bind_int64(self.list, 1, tag as i64);
            while sqlite3_step(self.list) == ROW {
                sum += (0..4).map(|i| sqlite3_column_int64(self.list, i)).nth(1).unwrap() as u64;
            }
            sqlite3_reset(self.list);
        }
        sum
    }
}

impl Drop for Table {
    fn drop(&mut self) {
        unsafe {
            for s in [self.put, self.list, self.delete] {
                sqlite3_finalize(s);
            }
            sqlite3_close(self.db);
        }
    }
}
