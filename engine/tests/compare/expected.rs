//! What this engine prints for a log, and the first line in which another
//! printed run differs.

use engine::run_slice;

/// The printed run of a log.
pub struct Expected {
    pub printed: Vec<u8>,
}

impl Expected {
    pub fn of(log: &[u8]) -> Expected {
        Expected {
            printed: run_slice(log),
        }
    }

    /// The first line that differs.
    pub fn difference(&self, printed: &[u8]) -> Option<String> {
        if printed == self.printed {
            return None;
        }
        let mut theirs = printed.split(|&byte| byte == b'\n');
        let ours = self.printed.split(|&byte| byte == b'\n');
        for (index, line) in ours.enumerate() {
            let other = theirs.next();
            if other != Some(line) {
                return Some(format!(
                    "line {}: expected {}, printed {}",
                    index + 1,
                    shown(Some(line)),
                    shown(other)
                ));
            }
        }
        let extra = theirs.next()?;
        Some(format!("after the end: printed {}", shown(Some(extra))))
    }
}

fn shown(line: Option<&[u8]>) -> String {
    line.map_or("nothing more".to_owned(), |line| {
        format!("'{}'", line.escape_ascii())
    })
}

mod tests {
    use super::Expected;
    use crate::log::log_of;
    use crate::printed_run::{LISTING, STEPS};

    /// Rank 0 looks with messages of 3 and 1, but not 2, unread: 3 sent first.
    const LOOKING: &str = "start 0 0, start 1 1, start 2 2, start 3 3, call 1 0, route 1 0, \
        call 3 0, route 3 0, send 3 0 8, send 1 0 7, look 0, look 1, take 0 3";

    fn looking_with(of_look: &str, line: &str) -> Option<String> {
        let expected = Expected::of(&log_of(LOOKING));
        let printed = String::from_utf8(expected.printed.clone()).unwrap();
        assert!(printed.contains(&format!("\n{of_look}\n")), "{printed}");
        let other = printed.replace(of_look, line);
        expected.difference(other.as_bytes())
    }

    /// "The printed rank is compared exactly from here" (paper 02, Change 6).
    #[test]
    fn a_look_names_the_oldest_and_nobody_else() {
        let looked = "38 0C 0 3 0 0";
        assert_eq!(looking_with(looked, looked), None);
        for line in [
            "38 0C 0 1 0 0",
            "38 0C 0 0 0 0",
            "38 0C 0 2 0 0",
            "38 0C 0 4 0 0",
            "38 0C 0 16 0 0",
            "38 0C 0 03 0 0",
            "38 0C 0 3 1 0",
            "38 0C 0 3 0 0 ",
            "38 0C 22 0 0 0",
            "39 0C 0 3 0 0",
            "38 0C 0 3 0 0\n38 0C 0 3 0 0",
        ] {
            assert!(looking_with(looked, line).is_some(), "{line}");
        }
    }

    #[test]
    fn a_refused_look_names_nobody() {
        let refused = "40 0C 22 0 0 0";
        assert!(looking_with(refused, "40 0C 0 0 0 0").is_some());
    }

    #[test]
    fn any_changed_missing_or_added_byte_is_found() {
        let expected = Expected::of(&log_of(STEPS));
        assert_eq!(expected.difference(LISTING.as_bytes()), None);
        for index in 0..LISTING.len() {
            for change in [0x01, 0x80] {
                let mut printed = LISTING.as_bytes().to_vec();
                printed[index] ^= change;
                assert!(expected.difference(&printed).is_some(), "byte {index}");
            }
            let mut printed = LISTING.as_bytes().to_vec();
            printed.insert(index, b'0');
            assert!(expected.difference(&printed).is_some(), "before {index}");
            printed.truncate(index);
            assert!(expected.difference(&printed).is_some(), "cut at {index}");
        }
        for tail in ["\n", "end\n", " "] {
            let printed = [LISTING, tail].concat();
            assert!(expected.difference(printed.as_bytes()).is_some());
        }
    }

    #[test]
    fn the_first_difference_is_named() {
        let expected = Expected::of(&log_of(STEPS));
        let changed = LISTING.replace("59 09 0 2 0 0", "59 09 0 3 0 0");
        let difference = expected.difference(changed.as_bytes()).unwrap();
        assert_eq!(
            difference,
            "line 17: expected '59 09 0 2 0 0', printed '59 09 0 3 0 0'"
        );
        let difference = expected.difference(b"").unwrap();
        assert_eq!(difference, "line 1: expected '0 01 0 0 1 0', printed ''");
    }
}
