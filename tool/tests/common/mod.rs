//! What the tests of the program share.
#![allow(dead_code, reason = "each test file uses its own part")]

use std::fs;
use std::path::{Path, PathBuf};
use std::process::Command;
use std::sync::atomic::{AtomicUsize, Ordering};

/// The town of two roads, as text.
pub const TOWN: &str = "\
# Times in hundredths of a minute, capacities in trips.
# Nodes and links count from 0.
study 1
nodes 2
links 2
destinations 1

#    number  tail  head   free   rise  capacity
link      0     0     1     10     10         2
link      1     0     1     15      0         1

destination 1  # 2 trips
  from 0: 2

total: 2 trips
check: accepted
";

/// The town of two roads, as a file.
#[rustfmt::skip]
pub const TOWN_FILE: [u8; 58] = [
    1, 0, 2, 0, 2, 0, 1, 0,
    32, 0, 0, 0, 20, 0, 0, 0,
    52, 0, 0, 0, 2, 0, 0, 0,
    54, 0, 0, 0, 4, 0, 0, 0,
    0, 0, 1, 0, 10, 0, 10, 0, 2, 0,
    0, 0, 1, 0, 15, 0, 0, 0, 1, 0,
    1, 0,
    2, 0, 0, 0,
];

/// A town with a zone, node 1, which is closed, as text.
pub const ZONE: &str = "\
# Times in hundredths of a minute, capacities in trips.
# Nodes and links count from 0.
study 2
nodes 4
links 4
destinations 1

closed 1

#    number  tail  head   free   rise  capacity
link      0     0     1      5     20         2
link      1     1     2      5      0         1
link      2     0     3     10      0         1
link      3     3     2     10      0         1

destination 2  # 3 trips
  from 0: 2
  from 1: 1

total: 3 trips
check: accepted
";

/// The town with a zone, as a file.
#[rustfmt::skip]
pub const ZONE_FILE: [u8; 94] = [
    2, 0, 4, 0, 4, 0, 1, 0,
    40, 0, 0, 0, 40, 0, 0, 0,
    80, 0, 0, 0, 2, 0, 0, 0,
    82, 0, 0, 0, 8, 0, 0, 0,
    90, 0, 0, 0, 4, 0, 0, 0,
    0, 0, 1, 0, 5, 0, 20, 0, 2, 0,
    1, 0, 2, 0, 5, 0, 0, 0, 1, 0,
    0, 0, 3, 0, 10, 0, 0, 0, 1, 0,
    3, 0, 2, 0, 10, 0, 0, 0, 1, 0,
    2, 0,
    2, 0, 1, 0, 0, 0, 0, 0,
    0, 1, 0, 0,
];

/// The town with a zone in version 3, where links have powers, as text.
pub const POWERS: &str = "\
# Times in hundredths of a minute, capacities in trips.
# Nodes and links count from 0.
study 3
nodes 4
links 4
destinations 1

closed 1

#    number  tail  head   free   rise  capacity  power
link      0     0     1      5     20         2      1
link      1     1     2      5      0         1      4
link      2     0     3     10     30         1      2
link      3     3     2     10      7         3      3

destination 2  # 3 trips
  from 0: 2
  from 1: 1

total: 3 trips
check: accepted
";

/// The town with powers, as a file.
#[rustfmt::skip]
pub const POWERS_FILE: [u8; 102] = [
    3, 0, 4, 0, 4, 0, 1, 0,
    40, 0, 0, 0, 48, 0, 0, 0,
    88, 0, 0, 0, 2, 0, 0, 0,
    90, 0, 0, 0, 8, 0, 0, 0,
    98, 0, 0, 0, 4, 0, 0, 0,
    0, 0, 1, 0, 5, 0, 20, 0, 2, 0, 1, 0,
    1, 0, 2, 0, 5, 0, 0, 0, 1, 0, 4, 0,
    0, 0, 3, 0, 10, 0, 30, 0, 1, 0, 2, 0,
    3, 0, 2, 0, 10, 0, 7, 0, 3, 0, 3, 0,
    2, 0,
    2, 0, 1, 0, 0, 0, 0, 0,
    0, 1, 0, 0,
];

/// The town with powers in version 4, with lorries, which are barred from link
/// 2, as text.
pub const LORRIES: &str = "\
# Times in hundredths of a minute, capacities in trips.
# Nodes and links count from 0.
# Lorry trips count in car units.
study 4
nodes 4
links 5
destinations 1

closed 1

barred 2

#    number  tail  head   free   rise  capacity  power
link      0     0     1      5     20         2      1
link      1     1     2      5      0         1      4
link      2     0     3     10     30         1      2
link      3     3     2     10      7         3      3
link      4     0     3     12      0         9      4

destination 2  # 8 trips (5 lorry trips)
  from 0: 2
  from 1: 1
  lorries from 0: 4
  lorries from 3: 1

total: 8 trips (5 lorry trips)
check: accepted
";

/// The town with lorries, as a file.
#[rustfmt::skip]
pub const LORRIES_FILE: [u8; 143] = [
    4, 0, 4, 0, 5, 0, 1, 0,
    56, 0, 0, 0, 60, 0, 0, 0,
    116, 0, 0, 0, 2, 0, 0, 0,
    118, 0, 0, 0, 8, 0, 0, 0,
    126, 0, 0, 0, 4, 0, 0, 0,
    130, 0, 0, 0, 8, 0, 0, 0,
    138, 0, 0, 0, 5, 0, 0, 0,
    0, 0, 1, 0, 5, 0, 20, 0, 2, 0, 1, 0,
    1, 0, 2, 0, 5, 0, 0, 0, 1, 0, 4, 0,
    0, 0, 3, 0, 10, 0, 30, 0, 1, 0, 2, 0,
    3, 0, 2, 0, 10, 0, 7, 0, 3, 0, 3, 0,
    0, 0, 3, 0, 12, 0, 0, 0, 9, 0, 4, 0,
    2, 0,
    2, 0, 1, 0, 0, 0, 0, 0,
    0, 1, 0, 0,
    4, 0, 0, 0, 0, 0, 1, 0,
    0, 0, 1, 0, 0,
];

/// What a run of the program came to.
#[derive(Debug)]
pub struct Outcome {
    pub status: i32,
    pub stdout: String,
    pub stderr: String,
}

impl Outcome {
    /// The run went well; its standard output.
    #[track_caller]
    pub fn ok(self) -> String {
        assert_eq!(self.status, 0, "{self:?}");
        self.stdout
    }
}

/// A folder of a test's own, where it runs the program, so that files go by
/// their names.
pub struct Folder(PathBuf);

impl Folder {
    /// An empty folder, another one at each call: tests run side by side, and
    /// two of them may give one name.
    pub fn new(name: &str) -> Self {
        static CALLS: AtomicUsize = AtomicUsize::new(0);
        let call = CALLS.fetch_add(1, Ordering::Relaxed);
        let folder = Path::new(env!("CARGO_TARGET_TMPDIR")).join(format!("{name}-{call}"));
        let _ = fs::remove_dir_all(&folder);
        fs::create_dir_all(&folder).expect("a folder for the test");
        Folder(folder)
    }

    pub fn path(&self, name: &str) -> PathBuf {
        self.0.join(name)
    }

    pub fn put(&self, name: &str, contents: impl AsRef<[u8]>) {
        fs::write(self.path(name), contents).expect("a file for the test");
    }

    pub fn bytes(&self, name: &str) -> Vec<u8> {
        fs::read(self.path(name)).expect("a file of the test")
    }

    /// Runs the program in this folder.
    pub fn study(&self, arguments: &[&str]) -> Outcome {
        let output = Command::new(env!("CARGO_BIN_EXE_study"))
            .args(arguments)
            .current_dir(&self.0)
            .output()
            .expect("the program runs");
        Outcome {
            status: output.status.code().expect("the program ends by itself"),
            stdout: String::from_utf8(output.stdout).expect("text"),
            stderr: String::from_utf8(output.stderr).expect("text"),
        }
    }

    /// Runs the program, which finds fault with an input: status 1, this
    /// message and nothing else, and no file `out`.
    #[track_caller]
    pub fn fails(&self, arguments: &[&str], message: &str) {
        let outcome = self.study(arguments);
        assert_eq!(outcome.stderr, format!("study: {message}\n"));
        assert_eq!(outcome.stdout, "");
        assert_eq!(outcome.status, 1);
        assert!(!self.path("out").exists(), "a file was written");
    }
}

/// A text with one place changed.
#[track_caller]
pub fn with(text: &str, from: &str, to: &str) -> String {
    assert_eq!(text.matches(from).count(), 1, "`{from}` stands there once");
    text.replace(from, to)
}

/// Numbers that look random (splitmix64), the same ones in every run.
pub struct Dice(pub u64);

impl Dice {
    pub fn below(&mut self, end: u64) -> u64 {
        self.0 = self.0.wrapping_add(0x9E37_79B9_7F4A_7C15);
        let mut z = self.0;
        z = (z ^ (z >> 30)).wrapping_mul(0xBF58_476D_1CE4_E5B9);
        z = (z ^ (z >> 27)).wrapping_mul(0x94D0_49BB_1331_11EB);
        (z ^ (z >> 31)) % end
    }

    pub fn number(&mut self, low: u16, high: u16) -> u16 {
        low + self.below(u64::from(high - low) + 1) as u16
    }

    pub fn once_in(&mut self, times: u64) -> bool {
        self.below(times) == 0
    }
}
