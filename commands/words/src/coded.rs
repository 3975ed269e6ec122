//! Names as words that no shell alters: letters, digits and `._-/+@` as they
//! are, every other byte as `%` and two digits. A list of them has commas
//! between.

use std::ffi::OsString;
use std::os::unix::ffi::{OsStrExt, OsStringExt};
use std::path::{Path, PathBuf};

pub fn coded(name: &Path) -> String {
    let mut text = String::new();
    for byte in name.as_os_str().as_bytes() {
        match byte {
            b'a'..=b'z' | b'A'..=b'Z' | b'0'..=b'9' => text.push(char::from(*byte)),
            b'.' | b'_' | b'-' | b'/' | b'+' | b'@' => text.push(char::from(*byte)),
            byte => text += &format!("%{byte:02X}"),
        }
    }
    text
}

/// The name that was coded; none where no name is coded so.
pub fn decoded(text: &str) -> Option<PathBuf> {
    let mut bytes = Vec::new();
    let mut left = text.as_bytes();
    while let [first, rest @ ..] = left {
        left = rest;
        if *first != b'%' {
            bytes.push(*first);
            continue;
        }
        let digits = std::str::from_utf8(rest.get(..2)?).ok()?;
        bytes.push(u8::from_str_radix(digits, 16).ok()?);
        left = &rest[2..];
    }
    let name = PathBuf::from(OsString::from_vec(bytes));
    (coded(&name) == text).then_some(name)
}

/// The names of a list.
pub fn list(text: &str) -> Option<Vec<PathBuf>> {
    text.split(',').map(decoded).collect()
}

#[cfg(test)]
mod tests {
    use super::*;
    use std::ffi::OsStr;

    #[test]
    fn names_there_and_back() {
        for (name, right) in [
            (&b"sub/take-1.wav"[..], "sub/take-1.wav"),
            (b"a b,c.wav", "a%20b%2Cc.wav"),
            (b"it's\n\"x\"{}", "it%27s%0A%22x%22%7B%7D"),
            (b"\xff%.wav", "%FF%25.wav"),
            (b"~$(x)`\\", "%7E%24%28x%29%60%5C"),
        ] {
            let name = Path::new(OsStr::from_bytes(name));
            assert_eq!(coded(name), right);
            assert_eq!(decoded(&coded(name)).as_deref(), Some(name));
            let plain = |byte: u8| byte.is_ascii_alphanumeric() || b"._-/+@%".contains(&byte);
            assert!(coded(name).bytes().all(plain));
        }
        for wrong in ["a b", "%", "%4", "%zz", "%61", "a%0a"] {
            assert_eq!(decoded(wrong), None, "{wrong}");
        }
        let names = ["a,b", "c"].map(PathBuf::from).to_vec();
        assert_eq!(list("a%2Cb,c"), Some(names));
    }
}
