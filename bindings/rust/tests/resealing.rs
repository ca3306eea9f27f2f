//! Messages that go to new keys, over a library. What is expected are the texts of vectors/, and which field of a message was altered.

use esdk::{Error, Keyring, Opening, Resealing, Sealing, list_header};
use std::fs;
use std::io::{self, Read, Write};
use std::path::PathBuf;

fn named(name: &str) -> Vec<u8> {
    let vectors = PathBuf::from(env!("CARGO_MANIFEST_DIR")).join("../../vectors");
    fs::read(vectors.join(name)).unwrap()
}

fn ring_of(name: &str, first: u8) -> Keyring {
    let key: String = (0..32).map(|at| format!("{:02x}", first + at)).collect();
    Keyring::new(format!("esdk-vectors {name} {key}").into_bytes()).unwrap()
}

fn old() -> Keyring {
    ring_of("first", 0)
}

fn new() -> Keyring {
    ring_of("new", 64)
}

fn line(error: io::Error) -> String {
    Error::of(&error).unwrap().line().to_string()
}

/// All that a reader gives, and the line of the error behind it.
fn all_of(mut reader: impl Read, size: usize) -> (Vec<u8>, Option<String>) {
    let (mut all, mut room) = (Vec::new(), vec![0; size]);
    loop {
        match reader.read(&mut room) {
            Ok(0) => return (all, None),
            Ok(count) => all.extend_from_slice(&room[..count]),
            Err(error) => return (all, Some(line(error))),
        }
    }
}

const FRAME: usize = 1000;

fn resealing() -> Resealing {
    Resealing::new().frame_length(FRAME as u32)
}

/// The new key alone opens it, to this text and the old message's context.
fn is_moved(moved: &[u8], message: &[u8], text: &[u8]) {
    let opened = Opening::new().all(&new(), moved).unwrap();
    assert_eq!(opened, (text.to_vec(), Opening::new().all(&old(), message).unwrap().1));
    assert_eq!(Opening::new().all(&old(), moved).map_err(line), Err("M15 NoKeyOpens".into()));
    assert!(list_header(moved, false).unwrap().contains("\nframe-length: 1000\n"));
    assert_ne!(moved[3..35], message[3..35]);
}

const WHOLE: [(&str, &str); 9] = [
    ("empty", "0"),
    ("one-byte", "1"),
    ("full-frame", "4096"),
    ("frame-and-a-byte", "4097"),
    ("many-frames", "1000"),
    ("frames-of-one-byte", "9"),
    ("long-frame", "10000"),
    ("many-pairs", "5000"),
    ("single-block", "5000"),
];

#[test]
fn vectors_go_to_new_keys() {
    for (name, text) in WHOLE {
        let (message, text) = (named(&format!("ciphertexts/{name}")), named(&format!("plaintexts/{text}")));
        let (moved, context) = resealing().all(&old(), &new(), &message).unwrap();
        assert_eq!(context, Opening::new().all(&old(), &message).unwrap().1);
        is_moved(&moved, &message, &text);
        for size in [1, 15, 4096, 65536] {
            let (read, error) = all_of(resealing().reader(&old(), &new(), &message[..]).unwrap(), size);
            assert_eq!(error, None, "{name}");
            is_moved(&read, &message, &text);
            let mut writer = resealing().writer(&old(), &new(), Vec::new()).unwrap();
            message.chunks(size).for_each(|piece| writer.write_all(piece).unwrap());
            writer.finish().unwrap();
            assert!(writer.write(b"x").is_err());
            is_moved(&writer.into_sink(), &message, &text);
        }
    }
}

// Which field was altered says the fault, by docs/FORMAT.md. Of the whole message of that name so many new frames come before it;
// of no name none comes, and no header.
const REFUSED: [(&str, &str, &str, usize); 6] = [
    ("altered-message-id", "M16 Commitment", "", 0),
    ("altered-pair", "M15 NoKeyOpens", "", 0),
    ("altered-header-tag", "M17 HeaderTag", "", 0),
    ("altered-content", "M20 UnitTag 1", "full-frame", 0),
    ("altered-tag", "M20 UnitTag 2", "two-keys", 4),
    ("cut", "M10 Truncated", "two-keys", 4),
];

/// The length of the new header of a whole message.
fn header_of(name: &str) -> usize {
    let moved = resealing().all(&old(), &new(), &named(&format!("ciphertexts/{name}"))).unwrap().0;
    let text = Opening::new().all(&new(), &moved).unwrap().0.len();
    moved.len() - text - text.div_ceil(FRAME) * 32 - 8
}

#[test]
fn of_a_message_with_a_fault_no_whole_one_comes() {
    for (name, wanted, whole, frames) in REFUSED {
        let message = named(&format!("ciphertexts/{name}"));
        let (came, error) = all_of(resealing().reader(&old(), &new(), &message[..]).unwrap(), 700);
        let length = if whole.is_empty() { 0 } else { header_of(whole) + frames * (FRAME + 32) };
        assert_eq!((error.as_deref(), came.len()), (Some(wanted), length), "{name}");
        assert!(Opening::new().all(&new(), &came).is_err());
        let mut writer = resealing().writer(&old(), &new(), Vec::new()).unwrap();
        let refused = writer.write_all(&message).and_then(|()| writer.finish()).unwrap_err();
        assert_eq!(line(refused), wanted);
        assert!(writer.finish().is_err());
        assert_eq!(writer.into_sink().len(), length, "{name}");
    }
}

#[test]
fn what_is_only_authenticated_stays_so() {
    let message = Sealing::new().pair("set", "a").pair("tenant", "acme").require("tenant").all(&old(), b"hello").unwrap();
    assert_eq!(Resealing::new().all(&old(), &new(), &message).map_err(line), Err("M15 NoKeyOpens".into()));
    let given = || Opening::new().pair("tenant", "acme");
    let (moved, context) = Resealing::new().opening(given()).all(&old(), &new(), &message).unwrap();
    assert!(!moved.windows(4).any(|four| four == b"acme"));
    let (text, whole) = given().all(&new(), &moved).unwrap();
    assert_eq!((text.as_slice(), &whole), (&b"hello"[..], &context));
    assert_eq!((context["set"].as_str(), context["tenant"].as_str(), context.len()), ("a", "acme", 2));
    assert_eq!(Opening::new().all(&new(), &moved).map_err(line), Err("M15 NoKeyOpens".into()));
    let wanted = Resealing::new().opening(given().require("set")).all(&old(), &new(), &message);
    assert_eq!(wanted.map_err(line), Err("M13 MissingRequired \"set\"".into()));
}

#[test]
fn what_is_refused() {
    let two = named("ciphertexts/two-keys");
    let resealed = |resealing: Resealing, new: &Keyring, message: &[u8]| resealing.all(&old(), new, message).map_err(line);
    assert_eq!(resealed(Resealing::new().opening(Opening::new().max_keys(1)), &new(), &two), Err("M5 TooManyDataKeys 2".into()));
    assert_eq!(resealed(Resealing::new().opening(Opening::new().max_unit(4095)), &new(), &two), Err("M9 UnitTooLong 4096".into()));
    assert_eq!(resealed(Resealing::new(), &new(), b"\x01\x80\x01\x78"), Err("M23 Uncommitted 0178".into()));
    let old_format = Resealing::new().opening(Opening::new().allow_uncommitted());
    assert_eq!(resealed(old_format, &new(), b"\x01\x80\x01\x78"), Err("M10 Truncated".into()));
    assert_eq!(resealed(Resealing::new().frame_length(0), &new(), &two), Err("a frame length of 0".into()));
    let key = r#"{"version":2,"ring":{"raw":{"namespace":"a","name":"b","key":"AAECAwQFBgcICQoLDA0ODxAREhMUFRYXGBkaGxwdHh8=","retired":true}}}"#;
    let retired = Keyring::new(key.into()).unwrap();
    assert_eq!(resealed(Resealing::new(), &retired, &two), Err("Q5 NoGenerator".into()));
}
