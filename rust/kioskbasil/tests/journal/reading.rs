//! Bytes of journals, as they are read.

use super::{bytes, refusal, small, told, Folder, ENDS, FIRST, HEADER, SECOND, THIRD};
use kioskbasil::journal::{self, End, GoOnError, Header, ReadError, Reader, RepairError};
use kioskbasil::{NumbersError, Page};
use std::error::Error;
use std::fs;
use std::io::{self, Read};

#[test]
fn whole_records_are_read() {
    let read = journal::read_from(&small()[..]).unwrap();
    let header = read.header();
    assert_eq!((header.senders(), header.most_messages()), (2, 16));
    assert_eq!((header.place(), header.first_numbers()), (5, &[9, 4][..]));
    let shown: Vec<_> = read
        .frames()
        .iter()
        .map(|it| (it.tenure, it.owner, it.place, it.end_place()))
        .collect();
    assert_eq!(shown, [(0, 0, 5, 8), (3, 1, 8, 10), (5, 0, 10, 12)]);
    let items: Vec<_> = read
        .items()
        .map(|it| (it.sender, it.number, it.to_vec()))
        .collect();
    assert_eq!(items, [(0, 0, b"a".to_vec()), (1, 7, Vec::new())]);
    assert_eq!(
        (read.end(), read.whole_bytes(), read.place()),
        (End::Whole, 144, 12)
    );
    // The number of sender 0 is behind that of the header, and no number is given twice.
    assert_eq!(read.next_numbers(), [9, 8]);
    assert!(read.has_ended() && read.left().iter().all(|left| !left));
    assert_eq!(read.page().unwrap().next_numbers()[..3], [9, 8, 0]);
}

/// A page keeps the numbers of senders that the file has not.
#[test]
fn pages_keep_other_senders() {
    let read = journal::read_from(&small()[..]).unwrap();
    let before = Page::from_numbers(&[9, 4, 90]).unwrap();
    let page = read.page_after(&before).unwrap();
    assert_eq!(page.next_numbers()[..4], [9, 8, 90, 0]);
    assert!(page.has_ended());
}

/// Refused where a first number is another than that of the page, and by `page` never. Damage is
/// told before that, and used numbers behind it.
#[test]
fn pages_that_do_not_go_on_are_refused() {
    let page = |numbers: &[u64]| Page::from_numbers(numbers).unwrap();
    let last = "4040010000000003 8000ffffffffffff 2f9150bf2ca1957b";
    let spent = bytes(&[HEADER, FIRST, last]);
    let damaged = [&small()[..], &[1; 9]].concat();
    let at = GoOnError::Damaged { at: 144 };
    for (bytes, fits, other) in [
        (&small(), None, GoOnError::Gap),
        (&spent, Some(GoOnError::Numbers), GoOnError::Gap),
        (&damaged, Some(at), at),
    ] {
        let read = journal::read_from(&bytes[..]).unwrap();
        assert_eq!(read.page().err(), fits);
        assert_eq!(read.page_after(&page(&[9, 4])).err(), fits);
        for numbers in [[0, 0], [9, 0], [0, 4], [9, 5], [10, 4], [9, 8]] {
            assert_eq!(read.page_after(&page(&numbers)), Err(other), "{numbers:?}");
        }
    }
    let text = "the journal does not go on from the page before";
    assert_eq!(GoOnError::Gap.to_string(), text);
}

/// A reader that has a frame at a time says the same, and ends for good.
#[test]
fn readers_give_frames_one_by_one() {
    let bytes = bytes(&[HEADER, FIRST, SECOND, &THIRD[..20]]);
    let mut reader = Reader::new(&bytes[..]).unwrap();
    assert_eq!((reader.place(), reader.end()), (5, None));
    let places: Vec<_> = reader.by_ref().map(|frame| frame.unwrap().place).collect();
    assert_eq!(places, [5, 8]);
    assert_eq!(reader.end(), Some(End::Torn { at: 120 }));
    assert_eq!((reader.place(), reader.next_numbers()), (10, &[9, 8][..]));
    assert!(reader.next().is_none());
}

/// Each cut is whole or torn, with just the whole records before it, also with zeros behind it.
#[test]
fn cuts_are_torn() {
    let all = small();
    let frames = journal::read_from(&all[..]).unwrap().frames().to_vec();
    for cut in 64..=all.len() {
        let many = ENDS.iter().filter(|end| **end <= cut).count() - 1;
        let at = ENDS[many];
        for zeros in 0..40 {
            let bytes = [&all[..cut], &vec![0; zeros]].concat();
            let read = journal::read_from(&bytes[..]).unwrap();
            let end = match cut == at && zeros == 0 {
                true => End::Whole,
                false => End::Torn { at: at as u64 },
            };
            assert_eq!(read.frames(), &frames[..many], "{cut} and {zeros}");
            assert_eq!(read.end(), end, "{cut} and {zeros}");
            assert!(read.page().is_ok());
        }
    }
    for cut in 0..64 {
        assert!(
            matches!(refusal(&all[..cut]), ReadError::TornHeader),
            "{cut}"
        );
    }
}

/// Each bit that is turned is told, and what is given before it is a front of the order.
#[test]
fn turned_bits_are_told() {
    let all = small();
    let frames = journal::read_from(&all[..]).unwrap().frames().to_vec();
    for bit in 0..8 * all.len() {
        let mut bytes = all.clone();
        bytes[bit / 8] ^= 0x80 >> (bit % 8);
        let at = match journal::read_from(&bytes[..]) {
            Err(ReadError::Io { .. }) => panic!("bit {bit}"),
            Err(_) => 0,
            Ok(read) => {
                let many = read.frames().len();
                assert_eq!(read.frames(), &frames[..many], "bit {bit}");
                match read.end() {
                    End::Whole => panic!("bit {bit}"),
                    End::Torn { at } | End::Damaged { at } => at as usize,
                }
            }
        };
        // Just the record in which the bit is, or the header, and all before it are read.
        let ends = ENDS.iter().filter(|end| **end <= bit / 8);
        assert_eq!(at, ends.max().copied().unwrap_or(0), "bit {bit}");
    }
}

#[test]
fn other_tails_are_damaged() {
    let at = |many: usize| End::Damaged {
        at: ENDS[many] as u64,
    };
    let left_out = bytes(&[HEADER, SECOND]);
    let doubled = bytes(&[HEADER, FIRST, FIRST]);
    let moved = bytes(&[HEADER, SECOND, FIRST]);
    let no_head = bytes(&[HEADER, FIRST, "0000000000000001"]);
    let no_sender = bytes(&[HEADER, FIRST, "4080010000000003"]);
    let nothing = bytes(&[HEADER, FIRST, "4040000000000003"]);
    let longer = bytes(&[HEADER, FIRST, "4040810000000003"]);
    assert_eq!(told(&left_out), (0, at(0)));
    assert_eq!(told(&doubled), (1, at(1)));
    assert_eq!(told(&moved), (0, at(0)));
    for rest in [no_head, no_sender, nothing, longer] {
        assert_eq!(told(&rest), (1, at(1)));
        // Less than eight bytes of it are torn.
        assert_eq!(told(&rest[..rest.len() - 1]), (1, End::Torn { at: 96 }));
    }
    let zeros = [small(), vec![0; 10_000]].concat();
    assert_eq!(told(&zeros), (3, End::Torn { at: 144 }));
    let far = [&zeros[..], &[1]].concat();
    assert_eq!(told(&far), (3, at(3)));
    let refused = journal::read_from(&far[..]).unwrap().page();
    assert_eq!(refused, Err(GoOnError::Damaged { at: 144 }));
}

/// Zeros before the last byte count, wherever that stands.
#[test]
fn far_bytes_are_damage() {
    let lengths = (0..20).chain(4_070..4_110).chain(8_170..8_210);
    for zeros in lengths {
        let bytes = [small(), vec![0; zeros], vec![1]].concat();
        let end = match zeros {
            0..=6 => End::Torn { at: 144 },
            _ => End::Damaged { at: 144 },
        };
        assert_eq!(told(&bytes), (3, end), "{zeros}");
    }
}

/// A head that tells of more than is there is torn by its format; with a whole record behind it
/// nothing goes on from it, and nothing is cut.
#[test]
fn hidden_records_are_seen() {
    let folder = Folder::new("hidden");
    let path = folder.file("journal");
    let mut bytes = small();
    bytes[98] ^= 0x10;
    fs::write(&path, &bytes).unwrap();
    let read = journal::read(&path).unwrap();
    assert_eq!((read.frames().len(), read.end()), (1, End::Torn { at: 96 }));
    assert_eq!(read.page(), Err(GoOnError::Damaged { at: 96 }));
    let refused = journal::repair(&path).unwrap_err();
    assert!(matches!(refused, RepairError::Damaged { at: 96 }));
    assert_eq!(fs::read(&path).unwrap(), bytes);
}

/// Records behind the first, each with its right checksum, with whose words no log goes on.
#[rustfmt::skip]
const BAD: [(&str, &str); 12] = [
    ("a tenure that is not above",
     "4040010000000000 8000000000000007 6df1688f5371967f"),
    ("a message without its tag",
     "4040010000000003 0000000000000007 88d6408b1fde764b"),
    ("a head in the place of a message",
     "4040010000000003 4000010000000004 b433de9f905fafeb"),
    ("57 bytes",
     "4040090000000003 8e40000000000007 0000000000000000 0000000000000000 0000000000000000 \
      0000000000000000 0000000000000000 0000000000000000 0000000000000000 0000000000000000 \
      7bd9baf87e343387"),
    ("the lowest of the six bits",
     "4040010000000003 8001000000000007 122780efeebffa47"),
    ("the highest of the six bits",
     "4040010000000003 8020000000000007 a062d4f90b7f8cff"),
    ("bytes that are not there",
     "4040010000000003 8200000000000007 ef7f1344830deb57"),
    ("an end before a message",
     "4040020000000003 c000000000000000 8000000000000007 d23077a155f1ba9b"),
    ("an end behind a message",
     "4040020000000003 8000000000000007 c000000000000000 c017ed53d5699bfb"),
    ("a leave behind a message",
     "4040020000000003 8000000000000007 c000000000000001 1641ef3a5f35d8ff"),
    ("a mark of another number",
     "4040010000000003 c000000000000002 8d4f20830a1798a3"),
    ("padding",
     "4040020000000003 8040000000000007 6100000000000001 674564e00a4d909f"),
];

#[test]
fn bad_words_are_damaged() {
    for (name, record) in BAD {
        let bytes = bytes(&[HEADER, FIRST, record]);
        assert_eq!(told(&bytes), (1, End::Damaged { at: 96 }), "{name}");
        let cut = &bytes[..bytes.len() - 1];
        assert_eq!(told(cut), (1, End::Torn { at: 96 }), "{name}");
    }
}

/// A frame of the most messages that one may have, and of one more.
#[test]
fn more_than_64_messages_are_damaged() {
    let words = |many: u64| (7..7 + many).map(|number| format!("80000000000000{number:02x}"));
    let record = |head: &str, many, sum: &str| {
        let words = words(many).collect::<String>();
        bytes(&[HEADER, FIRST, head, &words, sum])
    };
    let most = record("4040400000000003", 64, "5002d891c8bd937b");
    assert_eq!(told(&most), (2, End::Whole));
    let more = record("4040410000000003", 65, "999dae81d2b79a2f");
    assert_eq!(told(&more), (1, End::Damaged { at: 96 }));
}

/// What follows an end, and a frame of who has left.
#[test]
fn nothing_follows_an_end_or_a_leave() {
    let leave = "4040010000000003 c000000000000001 df6930bbeabaaa03";
    let end = "4040010000000003 c000000000000000 dca115b8a92c87a7";
    let other = "4000010000000004 8000000000000001 f00c3a918d91ae47";
    let own = "4040010000000004 8000000000000007 f9553d711bf6439f";
    assert_eq!(
        told(&bytes(&[HEADER, FIRST, leave, other])),
        (3, End::Whole)
    );
    assert_eq!(
        told(&bytes(&[HEADER, FIRST, leave, own])),
        (2, End::Damaged { at: 120 })
    );
    assert_eq!(
        told(&bytes(&[HEADER, FIRST, end, other])),
        (2, End::Damaged { at: 120 })
    );
    let read = journal::read_from(&bytes(&[HEADER, FIRST, leave])[..]).unwrap();
    assert_eq!(read.left()[..2], [false, true]);
    assert!(!read.has_ended());
}

/// The longest frame that a header allows and the last tenure and number are read; a frame with a
/// word more is not.
#[test]
fn limits_are_read() {
    let message = |number: u64| {
        format!(
            "8e000000000000{number:02x} {}",
            "6161616161616161".repeat(7)
        )
    };
    let messages = |many: u64| (7..7 + many).map(message).collect::<String>();
    let wide = "4b494f534b4c4f47 0000000000000001 0000000000000002 0000000000000040 \
         0000000000000005 0000000000000009 0000000000000004 484c796a7ee160cf";
    let longest = [
        (HEADER, "404080ffffffffff", 16, "2eed4508d35e0847"),
        (wide, "404200ffffffffff", 64, "1ce195d904a16473"),
    ];
    for (header, head, many, sum) in longest {
        let longest = bytes(&[header, FIRST, head, &messages(many), sum]);
        assert_eq!(told(&longest), (2, End::Whole));
        let read = journal::read_from(&longest[..]).unwrap();
        assert_eq!(read.next_numbers(), [9, 7 + many]);
    }
    let more = "8000000000000017 8ed837a5f1afa46f";
    let of_17 = |header| bytes(&[header, FIRST, "4040810000000003", &messages(16), more]);
    let more = "8000000000000047 71137f9f7c214edf";
    let of_65 = bytes(&[wide, FIRST, "4042010000000003", &messages(64), more]);
    assert_eq!(told(&of_17(wide)), (2, End::Whole));
    for longer in [of_17(HEADER), of_65] {
        for bytes in [&longer[..], &longer[..longer.len() - 1]] {
            assert_eq!(told(bytes), (1, End::Damaged { at: 96 }));
        }
    }
    let last = bytes(&[
        HEADER,
        FIRST,
        "4040010000000003 8000ffffffffffff 2f9150bf2ca1957b",
    ]);
    let read = journal::read_from(&last[..]).unwrap();
    assert_eq!(
        (read.end(), read.page()),
        (End::Whole, Err(GoOnError::Numbers))
    );
}

#[test]
fn other_headers_are_refused() {
    let front = "4b494f534b4c4f47 0000000000000001 0000000000000002";
    let numbers = "0000000000000009 0000000000000004";
    let most = |most: &str, sum: &str| bytes(&[front, most, "0000000000000005", numbers, sum]);
    let place = |place: &str, sum: &str| bytes(&[front, "0000000000000010", place, numbers, sum]);
    let is_damaged = |bytes: &[u8]| matches!(refusal(bytes), ReadError::DamagedHeader);
    assert!(is_damaged(&most("0000000000000000", "7873b28c51a2360f")));
    assert!(is_damaged(&most("0000000000000041", "6523f2f8abb3cc9b")));
    assert!(is_damaged(&place("8000000000000000", "6c558832e9ce99e3")));
    let far = place("7fffffffffffffff", "653a44477e52cdbf");
    assert_eq!(journal::read_from(&far[..]).unwrap().place(), (1 << 63) - 1);
    for senders in ["0000000000000000", "0000000000000041", "4000000000000001"] {
        assert!(is_damaged(&bytes(&[
            "4b494f534b4c4f47 0000000000000001",
            senders
        ])));
    }
    assert!(matches!(refusal(b"KIOSKLOX"), ReadError::OtherMagic));
    assert!(matches!(refusal(b"KIX"), ReadError::OtherMagic));
    assert!(matches!(
        refusal(b"KIOSKLOG\0\0\0\0\0\0\0"),
        ReadError::TornHeader
    ));
    let before = refusal(b"KIOSKLOG\0\0\0\0\0\0\0\0");
    assert!(matches!(before, ReadError::OtherVersion { version: 0 }));
    let later = refusal(b"KIOSKLOG\0\0\0\0\0\0\0\x02");
    assert!(matches!(later, ReadError::OtherVersion { version: 2 }));
    assert_eq!(later.to_string(), "a journal of version 2");
    let senders = NumbersError::Senders;
    assert_eq!(
        Header::after(0, &Page::from_numbers(&[0]).unwrap()),
        Err(senders)
    );
}

/// Gives these bytes, one by one, and then fails.
struct Fails<'a>(&'a [u8]);

impl Read for Fails<'_> {
    fn read(&mut self, buffer: &mut [u8]) -> io::Result<usize> {
        match self.0.split_first() {
            Some((byte, rest)) => {
                (buffer[0], self.0) = (*byte, rest);
                Ok(1)
            }
            None => Err(io::Error::new(io::ErrorKind::Other, "unplugged")),
        }
    }
}

#[test]
fn failing_reads_name_the_byte() {
    let all = [small(), vec![1; 9]].concat();
    for cut in 0..all.len() {
        match journal::read_from(Fails(&all[..cut])).unwrap_err() {
            ReadError::Io { path, byte, why } => {
                assert_eq!((path, byte), (None, cut as u64));
                assert_eq!(why.to_string(), "unplugged");
            }
            other => panic!("{other}"),
        }
    }
    let folder = Folder::new("missing");
    let path = folder.file("journal");
    let why = journal::read(&path).unwrap_err();
    let text = format!("{} is not read at byte 0: ", path.display());
    assert!(why.to_string().starts_with(&text), "{why}");
    assert!(why.source().is_some());
}
