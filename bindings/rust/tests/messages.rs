//! The crate over a library: ESDK_LIBRARY=FOLDER cargo test. What is expected comes from vectors/ of the checkout.

use esdk::{Error, Keyring, Kind, Opening, Sealing, Span, list_header, span};
use std::io::{self, Cursor, Read, Seek, SeekFrom, Write};
use std::panic::{self, AssertUnwindSafe};
use std::path::PathBuf;
use std::{fs, thread};

fn named(name: &str) -> Vec<u8> {
    let vectors = PathBuf::from(env!("CARGO_MANIFEST_DIR")).join("../../vectors");
    fs::read(vectors.join(name)).unwrap()
}

fn ring_of(name: &str, first: u8) -> Keyring {
    let key: String = (0..32).map(|at| format!("{:02x}", first + at)).collect();
    Keyring::new(format!("esdk-vectors {name} {key}").into_bytes()).unwrap()
}

fn ring() -> Keyring {
    ring_of("first", 0)
}

/// Gives so many bytes at a time.
struct Pieces<'a>(&'a [u8], usize);

impl Read for Pieces<'_> {
    fn read(&mut self, room: &mut [u8]) -> io::Result<usize> {
        let most = room.len().min(self.1);
        self.0.read(&mut room[..most])
    }
}

/// All that a reader gives, by rooms of a size, and the error behind it.
fn by_rooms(mut reader: impl Read, size: usize) -> (Vec<u8>, Option<Error>) {
    let (mut all, mut room) = (Vec::new(), vec![0; size]);
    loop {
        match reader.read(&mut room) {
            Ok(0) => return (all, None),
            Ok(count) => all.extend_from_slice(&room[..count]),
            Err(error) => return (all, Some(Error::of(&error).unwrap().clone())),
        }
    }
}

const WHOLE: [(&str, &str); 10] = [
    ("empty", "0"),
    ("one-byte", "1"),
    ("full-frame", "4096"),
    ("frame-and-a-byte", "4097"),
    ("many-frames", "1000"),
    ("frames-of-one-byte", "9"),
    ("long-frame", "10000"),
    ("many-pairs", "5000"),
    ("single-block", "5000"),
    ("empty-single-block", "0"),
];

// Which field was altered says the fault, by docs/FORMAT.md.
const REFUSED: [(&str, i32, &str, usize); 7] = [
    ("altered-message-id", 1016, "M16 Commitment", 0),
    ("altered-pair", 1015, "M15 NoKeyOpens", 0),
    ("altered-header-tag", 1017, "M17 HeaderTag", 0),
    ("altered-content", 1020, "M20 UnitTag 1", 0),
    ("altered-tag", 1020, "M20 UnitTag 2", 4096),
    ("altered-block", 1020, "M20 UnitTag 1", 0),
    ("cut", 1010, "M10 Truncated", 4096),
];

#[test]
fn vectors_are_opened_in_all_pieces_and_rooms() {
    for (name, text) in WHOLE {
        let (message, text) = (named(&format!("ciphertexts/{name}")), named(&format!("plaintexts/{text}")));
        for size in [1, 15, 4095, 4096, 65536] {
            let reader = Opening::new().reader(&ring(), Pieces(&message, size)).unwrap();
            assert_eq!(by_rooms(reader, 65536), (text.clone(), None), "{name}");
            let reader = Opening::new().reader(&ring(), &message[..]).unwrap();
            assert_eq!(by_rooms(reader, size), (text.clone(), None), "{name}");
            let mut writer = Opening::new().writer(&ring(), Vec::new()).unwrap();
            message.chunks(size).for_each(|piece| writer.write_all(piece).unwrap());
            writer.finish().unwrap();
            assert!(writer.write(b"x").is_err() && writer.finish().is_err());
            assert_eq!(writer.into_sink(), text, "{name}");
        }
    }
}

#[test]
fn altered_vectors_are_refused() {
    let text = named("plaintexts/5000");
    for (name, code, line, front) in REFUSED {
        let message = named(&format!("ciphertexts/{name}"));
        let (came, error) = by_rooms(Opening::new().reader(&ring(), &message[..]).unwrap(), 1000);
        let error = error.unwrap();
        assert_eq!((error.code(), error.line(), error.kind()), (code, line, Kind::Message), "{name}");
        assert_eq!(came, text[..front], "{name}");
        let mut writer = Opening::new().writer(&ring(), Vec::new()).unwrap();
        let refused = writer.write_all(&message).and_then(|()| writer.finish()).unwrap_err();
        assert_eq!(Error::of(&refused).unwrap().line(), line);
        assert!(writer.finish().is_err());
        assert_eq!(writer.into_sink(), text[..front], "{name}");
    }
}

#[test]
fn a_message_comes_back_with_its_context() {
    let text: Vec<u8> = (0..200_000u32).map(|at| (at * 7 / 3) as u8).collect();
    let sealing = Sealing::new().pair("set", "photos").pair("tenant", "acme").require("tenant").frame_length(1000);
    let read = sealing.all(&ring(), &text).unwrap();
    let mut writer = sealing.writer(&ring(), Vec::new()).unwrap();
    writer.write_all(&text).unwrap();
    writer.finish().unwrap();
    for message in [read, writer.into_sink()] {
        assert!(!message.windows(4).any(|four| four == b"acme"));
        let (back, context) = Opening::new().pair("tenant", "acme").all(&ring(), &message).unwrap();
        assert_eq!(back, text);
        assert_eq!((context["set"].as_str(), context["tenant"].as_str(), context.len()), ("photos", "acme", 2));
        let error = Opening::new().all(&ring(), &message).unwrap_err();
        assert_eq!(error.to_string(), "M15 NoKeyOpens");
    }
}

#[test]
fn what_is_refused() {
    let line = |error: io::Error| Error::of(&error).unwrap().line().to_string();
    assert_eq!(Keyring::new(b"a b".to_vec()).unwrap_err().code(), 3002);
    assert_eq!(Sealing::new().frame_length(0).all(&ring(), b"").map_err(line), Err("a frame length of 0".into()));
    assert_eq!(Sealing::new().length(4).all(&ring(), b"12345").map_err(line), Err("Q10 OverDeclared 4".into()));
    let twice = Sealing::new().pair("a", "").pair("a", "").all(&ring(), b"");
    assert_eq!(twice.map_err(line), Err("Q3 DuplicateKey \"a\"".into()));
    let two = named("ciphertexts/two-keys");
    assert_eq!(Opening::new().max_keys(1).all(&ring(), &two).map_err(line), Err("M5 TooManyDataKeys 2".into()));
    assert_eq!(Opening::new().max_unit(4095).all(&ring(), &two).map_err(line), Err("M9 UnitTooLong 4096".into()));
    assert_eq!(Opening::new().require("a").all(&ring(), &two).map_err(line), Err("M13 MissingRequired \"a\"".into()));
    assert_eq!(Opening::new().all(&ring_of("second", 128), &two).unwrap().0, named("plaintexts/5000"));
    assert!(!format!("{:?}", ring()).contains("0001"));
}

#[test]
fn a_source_that_fails_gives_no_whole_message() {
    struct Failing(usize);
    impl Read for Failing {
        fn read(&mut self, room: &mut [u8]) -> io::Result<usize> {
            self.0 += 1;
            match self.0 {
                1 => Ok(room.len()),
                2 => Err(io::ErrorKind::ConnectionReset.into()),
                _ => Ok(0),
            }
        }
    }
    let mut reader = Sealing::new().reader(&ring(), Failing(0)).unwrap();
    for _ in 0..2 {
        let error = io::copy(&mut reader, &mut io::sink()).unwrap_err();
        assert_eq!(error.kind(), io::ErrorKind::ConnectionReset);
    }
}

/// A source and a sink, of which one call panics.
struct Panicking<T>(T, usize);

impl<T> Panicking<T> {
    fn call(&mut self) -> &mut T {
        self.1 = self.1.wrapping_sub(1);
        assert_ne!(self.1, 0, "a bad day");
        &mut self.0
    }
}

impl<R: Read> Read for Panicking<R> {
    fn read(&mut self, room: &mut [u8]) -> io::Result<usize> {
        self.call().read(room)
    }
}

impl<W: Write> Write for Panicking<W> {
    fn write(&mut self, piece: &[u8]) -> io::Result<usize> {
        self.call().write(piece)
    }

    fn flush(&mut self) -> io::Result<()> {
        self.0.flush()
    }
}

fn caught<T>(call: impl FnOnce() -> io::Result<T>) -> bool {
    panic::catch_unwind(AssertUnwindSafe(call)).is_err()
}

#[test]
fn who_goes_on_behind_a_panic_gets_no_whole_message() {
    let text = [7; 200_000];
    let mut reader = Sealing::new().reader(&ring(), Panicking(&text[..], 2)).unwrap();
    assert!(caught(|| io::copy(&mut reader, &mut io::sink())));
    assert!(io::copy(&mut reader, &mut io::sink()).is_err());
    let mut writer = Sealing::new().writer(&ring(), Panicking(Vec::new(), 2)).unwrap();
    assert!(caught(|| writer.write_all(&text)));
    assert!(writer.write(b"x").is_err() && writer.flush().is_err() && writer.finish().is_err());
    let mut writer = Sealing::new().writer(&ring(), Panicking(Vec::new(), 1)).unwrap();
    assert!(caught(|| writer.finish()));
    assert!(writer.flush().is_err() && writer.finish().is_err());
}

#[test]
fn a_sink_that_fails_stays_failed() {
    let mut room = [0; 5000];
    let mut writer = Sealing::new().writer(&ring(), &mut room[..]).unwrap();
    assert_eq!(writer.write_all(&[7; 60_000]).unwrap_err().kind(), io::ErrorKind::WriteZero);
    for error in [writer.flush().unwrap_err(), writer.write(b"x").unwrap_err(), writer.finish().unwrap_err()] {
        assert_eq!(error.kind(), io::ErrorKind::WriteZero);
    }
    let mut writer = Sealing::new().writer(&ring(), Vec::new()).unwrap();
    writer.write_all(b"hello").unwrap();
    writer.flush().unwrap();
    writer.finish().unwrap();
    writer.flush().unwrap();
}

extern "C" {
    fn fork() -> i32;
    fn waitpid(child: i32, status: *mut i32, options: i32) -> i32;
    fn _exit(status: i32) -> !;
}

#[test]
fn the_child_of_a_fork_goes_on_with_no_message() {
    let mut reader = Sealing::new().reader(&ring(), io::repeat(7).take(100_000)).unwrap();
    let (mut front, mut status) = ([0; 1000], 0);
    reader.read_exact(&mut front).unwrap();
    // SAFETY: the child calls the reader, and ends.
    unsafe {
        let child = fork();
        if child == 0 {
            _exit(if io::copy(&mut reader, &mut io::sink()).is_err() { 7 } else { 1 });
        }
        assert_eq!((waitpid(child, &mut status, 0), status >> 8), (child, 7));
    }
    let mut message = front.to_vec();
    reader.read_to_end(&mut message).unwrap();
    assert!(Opening::new().all(&ring(), &message).unwrap().0 == [7; 100_000]);
}

#[test]
fn a_reader_goes_to_another_thread() {
    let readers: Vec<_> = (0..4).map(|_| Sealing::new().reader(&ring(), io::repeat(7).take(300_000)).unwrap()).collect();
    let threads: Vec<_> = readers.into_iter().map(|reader| thread::spawn(move || by_rooms(reader, 5000).0)).collect();
    for one in threads {
        let (text, _) = Opening::new().all(&ring(), &one.join().unwrap()).unwrap();
        assert!(text.len() == 300_000 && text.iter().all(|byte| *byte == 7));
    }
}

// By docs/FORMAT.md, "The listing", of ciphertexts/two-keys.
const LISTING: &str = "\
version: 2
suite: 0478
message-id: ab21ae9181382711186563d2a944a8d9ec4d9ca649c9911590b521ff54da934f
context: {\"purpose\":\"test\"}
data-keys: 2
data-key 1: provider=6573646b2d766563746f7273 info=6669727374000000800000000c6258ce87b4e2cd4de9046544 \
ciphertext=1cd7501ff9d2b31ea825099aebee180baf6f4d4bb0eb79b3776b878ff4e20e0691bffeaca8e42eb350bbc178db426b02
data-key 2: provider=6573646b2d766563746f7273 info=7365636f6e64000000800000000c88f0baa1bbf9093eb1ac52b3 \
ciphertext=14d7d72e683bc1e16b0db77a1eb98b7ee42805db6e8a8b243c2359620c8342a37e605b3f8939f9e0ea9511da31ce2557
content: framed
frame-length: 4096
commitment: f854fa6c3c6e0b5299fa86c8a210514b4413f29fc0ae863c61b0e6e392e5c14f
tag: b0b2ac20492c3fe5b9c992bfe816091b
";

fn refused<T: std::fmt::Debug>(asked: Result<T, Error>) -> (i32, String) {
    let error = asked.unwrap_err();
    (error.code(), error.line().to_string())
}

#[test]
fn a_header_is_listed_without_a_key() {
    let two = named("ciphertexts/two-keys");
    assert_eq!(list_header(&two, false).unwrap(), LISTING);
    assert_eq!(list_header(&two[..292], true).unwrap(), LISTING);
    assert_eq!(refused(list_header(&two[..291], false)), (1010, "M10 Truncated".into()));
    assert_eq!(refused(list_header(b"", false)), (1010, "M10 Truncated".into()));
    assert_eq!(refused(list_header(b"x", false)), (1001, "M1 BadVersion".into()));
    assert_eq!(refused(list_header(b"\x01\x80\x01\x78", false)), (1023, "M23 Uncommitted".into()));
    assert_eq!(refused(list_header(b"\x01\x80\x01\x78", true)), (1010, "M10 Truncated".into()));
    let long = Sealing::new().pair("a", &"x".repeat(60_000)).all(&ring(), b"").unwrap();
    assert!(list_header(&long, false).unwrap().contains(&format!("\ncontext: {{\"a\":\"{}\"}}\n", "x".repeat(60_000))));
}

#[test]
fn the_leaves_that_open_a_message_are_told() {
    let two = named("ciphertexts/two-keys");
    assert_eq!(ring().openers(&two, &[]).unwrap(), [1]);
    assert_eq!(ring_of("second", 128).openers(&two, &[]).unwrap(), [1]);
    assert!(ring_of("second", 0).openers(&two, &[]).unwrap().is_empty());
    assert!(ring().openers(&named("ciphertexts/altered-header-tag"), &[]).unwrap().is_empty());
    assert_eq!(ring().openers(&named("ciphertexts/altered-content"), &[]).unwrap(), [1]);
    assert_eq!(refused(ring().openers(&two, &[("purpose", "x")])), (1012, "M12 ContextMismatch".into()));
    assert_eq!(refused(ring().openers(&two[..50], &[])), (1010, "M10 Truncated".into()));
    let message = Sealing::new().pair("tenant", "acme").require("tenant").all(&ring(), b"").unwrap();
    assert!(ring().openers(&message, &[]).unwrap().is_empty());
    assert_eq!(ring().openers(&message, &[("tenant", "acme")]).unwrap(), [1]);
}

#[test]
fn ranges_of_messages() {
    for (name, text) in WHOLE {
        let (message, text) = (named(&format!("ciphertexts/{name}")), named(&format!("plaintexts/{text}")));
        for at in [0, 1, 4095, 4096, 4097] {
            for count in [1, 4095, 4096, 8192, usize::MAX >> 2] {
                if at >= text.len() {
                    continue;
                }
                let came = Opening::new().range(&ring(), Cursor::new(&message), at as u64, count as u64).unwrap();
                assert_eq!(came, text[at..text.len().min(at.saturating_add(count))], "{name} {at} {count}");
            }
        }
    }
}

#[test]
fn what_a_range_is_refused_for() {
    let text: Vec<u8> = (0..100).collect();
    let message = Sealing::new().pair("set", "a").frame_length(10).all(&ring(), &text).unwrap();
    let header = message.len() - 10 * 42 - 8;
    let wanted = Span { header_length: header as u64, frame_length: 10, offset: (header + 126) as u64, size: 92 };
    assert_eq!(span(&message, 35, 10, false).unwrap(), wanted);
    assert_eq!(refused(span(&message[..header - 1], 0, 1, false)), (1010, "M10 Truncated".into()));
    assert_eq!(refused(span(&message, 0, 0, false)), (2009, "no message has such a range".into()));
    let mut altered = message.clone();
    altered[header + 126 + 20] ^= 1;
    let range = |opening: Opening, message: &[u8], at| {
        let came = opening.range(&ring(), Cursor::new(message), at, 10);
        came.map_err(|error| Error::of(&error).unwrap().line().to_string())
    };
    assert_eq!(range(Opening::new(), &altered, 30), Err("M20 UnitTag".into()));
    assert_eq!(range(Opening::new(), &altered, 20), Ok(text[20..30].to_vec()));
    assert_eq!(range(Opening::new(), &message[..header + 126 + 41], 30), Err("M10 Truncated".into()));
    assert_eq!(range(Opening::new().pair("set", "b"), &message, 30), Err("M12 ContextMismatch".into()));
    assert_eq!(range(Opening::new().require("set"), &message, 30), Err("M13 MissingRequired".into()));
    let mut source = Cursor::new([b"before", &message[..]].concat());
    source.seek(SeekFrom::Start(6)).unwrap();
    assert_eq!(Opening::new().range(&ring(), source, 5, 30).unwrap(), text[5..35]);
}
