//! SQLite, by the few of its functions that are needed, linked where the build script found the library.

use images::row::Row;
use images::value::Value;

/// What SQLite answers with.
#[derive(Debug, Clone, PartialEq, Eq)]
pub enum Found {
    Int(i64),
    Text(Vec<u8>),
    Null,
    /// A floating number, which is what it gives where 64 bits overflow.
    Real,
    Blob,
}

impl Found {
    /// Whether it is this value; SQLite has no BOOL of its own but 0 and 1.
    pub fn is(&self, value: &Value) -> bool {
        match value {
            Value::Int(number) => *self == Found::Int(*number),
            Value::Bool(truth) => *self == Found::Int(i64::from(*truth)),
            Value::Text(text) => matches!(self, Found::Text(bytes) if bytes == text.as_bytes()),
            Value::Null => *self == Found::Null,
        }
    }
}

/// As many columns as a table may have.
const COLUMNS: usize = 64;

/// An in-memory table `t` of one row, whose columns have no type of their own, so that SQLite converts nothing.
pub struct OneRow {
    database: Database,
    /// By the number of columns.
    fill: Vec<Option<Prepared>>,
    read: Vec<Option<Prepared>>,
}

impl OneRow {
    /// None where SQLite was not found.
    pub fn open() -> Option<Result<OneRow, String>> {
        Some(Database::open()?.and_then(OneRow::made))
    }

    fn made(database: Database) -> Result<OneRow, String> {
        let columns: Vec<String> = (0..COLUMNS).map(|place| format!("c{place}")).collect();
        database.execute(&format!("CREATE TABLE t ({})", columns.join(", ")))?;
        database.execute("INSERT INTO t (c0) VALUES (NULL)")?;
        let none = || (0..=COLUMNS).map(|_| None).collect();
        Ok(OneRow { database, fill: none(), read: none() })
    }

    /// Puts a row into the table.
    pub fn set(&mut self, row: &Row) -> Result<(), String> {
        let count = row.values.len();
        let fill = kept(&mut self.fill[count], &self.database, || {
            let changes: Vec<String> = (0..count).map(|place| format!("c{place} = ?{}", place + 1)).collect();
            format!("UPDATE t SET {}", changes.join(", "))
        })?;
        for (place, value) in row.values.iter().enumerate() {
            fill.bind(place + 1, value)?;
        }
        fill.run()
    }

    /// What an expression comes to over the row.
    pub fn ask(&mut self, expression: &str) -> Result<Found, String> {
        let mut select = self.database.prepare(&format!("SELECT {expression} FROM t"))?;
        match select.step()? {
            true => Ok(select.found(0)),
            false => Err("the table has no row".to_string()),
        }
    }

    pub fn execute(&mut self, sql: &str) -> Result<(), String> {
        self.database.execute(sql)
    }

    /// The first `count` values of the row.
    pub fn row(&mut self, count: usize) -> Result<Vec<Found>, String> {
        let read = kept(&mut self.read[count], &self.database, || {
            let columns: Vec<String> = (0..count).map(|place| format!("c{place}")).collect();
            format!("SELECT {} FROM t", columns.join(", "))
        })?;
        if !read.step()? {
            return Err("the table has no row".to_string());
        }
        let values = (0..count).map(|place| read.found(place)).collect();
        read.reset();
        Ok(values)
    }
}

/// Prepares a statement once.
fn kept<'a>(
    place: &'a mut Option<Prepared>,
    database: &Database,
    sql: impl FnOnce() -> String,
) -> Result<&'a mut Prepared, String> {
    match place {
        Some(prepared) => Ok(prepared),
        None => Ok(place.insert(database.prepare(&sql())?)),
    }
}

pub use library::{Database, Prepared, version};

#[cfg(sqlite)]
mod library {
    use std::ffi::{CStr, CString, c_char, c_int, c_void};
    use std::ptr::null_mut;
    use std::rc::Rc;

    use images::value::Value;

    use super::Found;

    type Handle = *mut c_void;

    unsafe extern "C" {
        fn sqlite3_libversion() -> *const c_char;
        fn sqlite3_open(name: *const c_char, database: *mut Handle) -> c_int;
        fn sqlite3_close(database: Handle) -> c_int;
        fn sqlite3_errmsg(database: Handle) -> *const c_char;
        fn sqlite3_prepare_v2(
            database: Handle,
            sql: *const c_char,
            length: c_int,
            statement: *mut Handle,
            tail: *mut *const c_char,
        ) -> c_int;
        fn sqlite3_finalize(statement: Handle) -> c_int;
        fn sqlite3_step(statement: Handle) -> c_int;
        fn sqlite3_reset(statement: Handle) -> c_int;
        fn sqlite3_bind_int64(statement: Handle, place: c_int, value: i64) -> c_int;
        // The last argument is a function or one of two numbers; only the number -1 is passed.
        fn sqlite3_bind_text(
            statement: Handle,
            place: c_int,
            text: *const c_char,
            length: c_int,
            destructor: isize,
        ) -> c_int;
        fn sqlite3_bind_null(statement: Handle, place: c_int) -> c_int;
        fn sqlite3_column_type(statement: Handle, place: c_int) -> c_int;
        fn sqlite3_column_int64(statement: Handle, place: c_int) -> i64;
        fn sqlite3_column_text(statement: Handle, place: c_int) -> *const u8;
        fn sqlite3_column_bytes(statement: Handle, place: c_int) -> c_int;
    }

    const OK: c_int = 0;
    const ROW: c_int = 100;
    const DONE: c_int = 101;
    /// SQLITE_TRANSIENT: SQLite makes a copy of the text.
    const COPY: isize = -1;

    pub fn version() -> Option<String> {
        // SAFETY: it is a constant text that ends with a NUL.
        Some(unsafe { CStr::from_ptr(sqlite3_libversion()) }.to_string_lossy().into_owned())
    }

    /// Closed when the last statement is gone too.
    struct Open(Handle);

    impl Drop for Open {
        fn drop(&mut self) {
            // SAFETY: it was opened, and no statement is left, as each holds this.
            unsafe { sqlite3_close(self.0) };
        }
    }

    impl Open {
        fn check(&self, code: c_int) -> Result<(), String> {
            if code == OK { Ok(()) } else { Err(self.message()) }
        }

        fn message(&self) -> String {
            // SAFETY: the database is open, and the text is copied at once.
            unsafe { CStr::from_ptr(sqlite3_errmsg(self.0)) }.to_string_lossy().into_owned()
        }
    }

    /// An in-memory database.
    pub struct Database(Rc<Open>);

    impl Database {
        pub fn open() -> Option<Result<Database, String>> {
            let mut handle = null_mut();
            // SAFETY: the name ends with a NUL, and the handle is written.
            let code = unsafe { sqlite3_open(c":memory:".as_ptr(), &mut handle) };
            let open = Rc::new(Open(handle));
            Some(open.check(code).map(|()| Database(open)))
        }

        pub fn prepare(&self, sql: &str) -> Result<Prepared, String> {
            let text = CString::new(sql).map_err(|_| format!("a NUL in {sql:?}"))?;
            let mut handle = null_mut();
            // SAFETY: the database is open, the text ends with a NUL, and the handle is written.
            let code = unsafe { sqlite3_prepare_v2(self.0.0, text.as_ptr(), -1, &mut handle, null_mut()) };
            self.0.check(code).map_err(|message| format!("{message}: {sql}"))?;
            Ok(Prepared { handle, database: self.0.clone() })
        }

        pub fn execute(&self, sql: &str) -> Result<(), String> {
            self.prepare(sql)?.run()
        }
    }

    pub struct Prepared {
        handle: Handle,
        database: Rc<Open>,
    }

    impl Drop for Prepared {
        fn drop(&mut self) {
            // SAFETY: it was prepared and is dropped once.
            unsafe { sqlite3_finalize(self.handle) };
        }
    }

    // SAFETY, of all below: the statement was prepared, and its database is open.
    impl Prepared {
        /// Parameters count from 1.
        pub fn bind(&mut self, place: usize, value: &Value) -> Result<(), String> {
            let (handle, place) = (self.handle, place as c_int);
            let code = match value {
                Value::Int(number) => unsafe { sqlite3_bind_int64(handle, place, *number) },
                Value::Bool(truth) => unsafe { sqlite3_bind_int64(handle, place, i64::from(*truth)) },
                Value::Text(text) => unsafe {
                    sqlite3_bind_text(handle, place, text.as_ptr().cast(), text.len() as c_int, COPY)
                },
                Value::Null => unsafe { sqlite3_bind_null(handle, place) },
            };
            self.database.check(code)
        }

        /// Whether there is a row.
        pub fn step(&mut self) -> Result<bool, String> {
            match unsafe { sqlite3_step(self.handle) } {
                ROW => Ok(true),
                DONE => Ok(false),
                _ => Err(self.database.message()),
            }
        }

        pub fn reset(&mut self) {
            unsafe { sqlite3_reset(self.handle) };
        }

        /// To its end, and ready for another time.
        pub fn run(&mut self) -> Result<(), String> {
            let result = self.step();
            self.reset();
            result.map(|_| ())
        }

        /// A value of the row that a step came to.
        pub fn found(&self, place: usize) -> Found {
            let (handle, place) = (self.handle, place as c_int);
            match unsafe { sqlite3_column_type(handle, place) } {
                1 => Found::Int(unsafe { sqlite3_column_int64(handle, place) }),
                2 => Found::Real,
                3 => Found::Text(self.text(place)),
                4 => Found::Blob,
                _ => Found::Null,
            }
        }

        fn text(&self, place: c_int) -> Vec<u8> {
            // SAFETY: the text is asked for before its length, as SQLite wants it, and is copied at once.
            unsafe {
                let bytes = sqlite3_column_text(self.handle, place);
                let length = sqlite3_column_bytes(self.handle, place) as usize;
                if length == 0 { Vec::new() } else { std::slice::from_raw_parts(bytes, length).to_vec() }
            }
        }
    }
}

/// Where there is no SQLite, nothing can be opened.
#[cfg(not(sqlite))]
mod library {
    use images::value::Value;

    use super::Found;

    pub fn version() -> Option<String> {
        None
    }

    pub enum Database {}
    pub enum Prepared {}

    impl Database {
        pub fn open() -> Option<Result<Database, String>> {
            None
        }

        pub fn prepare(&self, _: &str) -> Result<Prepared, String> {
            match *self {}
        }

        pub fn execute(&self, _: &str) -> Result<(), String> {
            match *self {}
        }
    }

    impl Prepared {
        pub fn bind(&mut self, _: usize, _: &Value) -> Result<(), String> {
            match *self {}
        }

        pub fn step(&mut self) -> Result<bool, String> {
            match *self {}
        }

        pub fn reset(&mut self) {
            match *self {}
        }

        pub fn run(&mut self) -> Result<(), String> {
            match *self {}
        }

        pub fn found(&self, _: usize) -> Found {
            match *self {}
        }
    }
}
