//! Cases of request 2 worked by hand, through the library and through the plain implementation.

use makxirund::paper::core_sets as paper;
use makxirund::{
    read_list, read_mask, write_list, write_mask, Reading, Written, LIST_ROOM, MASK_ROOM,
};

fn set_of(set: u64) -> Reading {
    Reading {
        number: 0,
        offset: 0,
        set,
    }
}

fn refused(number: u8, offset: usize) -> Reading {
    Reading {
        number,
        offset,
        set: 0,
    }
}

fn list(text: &str, limit: u8, said: Reading) {
    assert_eq!(read_list(text.as_bytes(), limit), said, "{text:?}");
    assert_eq!(paper::read_list(text.as_bytes(), limit), said, "{text:?}");
}

fn mask(text: &str, limit: u8, said: Reading) {
    assert_eq!(read_mask(text.as_bytes(), limit), said, "{text:?}");
    assert_eq!(paper::read_mask(text.as_bytes(), limit), said, "{text:?}");
}

#[test]
fn list_texts_that_are_read() {
    list("", 32, set_of(0));
    list("0-4,9", 32, set_of(0x21F));
    list("9,3-5,4,0000", 32, set_of(0x239));
    list("3-3", 32, set_of(8));
    list(&("0".repeat(50) + "5"), 32, set_of(32));
    list("0-63", 64, set_of(!0));
    list("0-63", 255, set_of(!0));
    list("", 0, set_of(0));
}

#[test]
fn list_texts_that_are_refused() {
    list("5-3x", 32, refused(18, 2));
    list("40-", 32, refused(19, 0));
    list("40-3", 32, refused(19, 0));
    list("32x", 32, refused(19, 0));
    list("3-40", 32, refused(19, 2));
    list("0,0040", 32, refused(19, 2));
    list("4294967296", 32, refused(19, 0));
    list(&"9".repeat(5_000), 32, refused(19, 0));
    list("64", 65, refused(19, 0));
    list("0", 0, refused(19, 0));
    list("1,", 32, refused(17, 2));
    list("1,,2", 32, refused(17, 2));
    list("1-2-3", 32, refused(17, 3));
    list("-1", 32, refused(17, 0));
    list("1-", 32, refused(17, 2));
    list(" 1", 32, refused(17, 0));
    list("1\n", 32, refused(17, 1));
    list("0-31:2/4", 32, refused(17, 4));
}

#[test]
fn mask_texts() {
    mask("0000021f", 32, set_of(0x21F));
    mask("00000001,8000ABcd", 64, set_of(0x1_8000_ABCD));
    mask("00000001,8000ABcd", 33, set_of(0x1_8000_ABCD));
    mask("0000000f", 4, set_of(15));
    mask("", 0, set_of(0));
    mask("", 32, refused(17, 0));
    mask("0000001", 32, refused(17, 7));
    mask("000000001", 32, refused(17, 8));
    mask("00000000,00000001", 32, refused(17, 8));
    mask("00000001", 64, refused(17, 8));
    mask("0000000100000000", 64, refused(17, 8));
    mask("0x000001", 32, refused(17, 1));
    mask("0000001f", 4, refused(19, 6));
    mask("0000001g", 4, refused(19, 6));
}

/// Writes into so many bytes; what lies beyond the text must stay.
fn written(
    writer: fn(u64, u8, &mut [u8]) -> Written,
    set: u64,
    limit: u8,
    room: usize,
) -> Result<String, u8> {
    let mut buffer = [0xA5; 256];
    let Written {
        number,
        place,
        length,
    } = writer(set, limit, &mut buffer[..room]);
    assert!(place == 0 && buffer[length..].iter().all(|&byte| byte == 0xA5));
    match number {
        0 => Ok(String::from_utf8(buffer[..length].to_vec()).unwrap()),
        _ if length == 0 => Err(number),
        _ => panic!("refused {number} with length {length}"),
    }
}

#[test]
fn texts_that_are_written() {
    for (set, limit, list, mask) in [
        (0, 32, "", "00000000"),
        (0x21F, 32, "0-4,9", "0000021f"),
        (3, 2, "0-1", "00000003"),
        (0xA000_0000_0000_000A, 64, "1,3,61,63", "a0000000,0000000a"),
        (!0, 255, "0-63", "ffffffff,ffffffff"),
        (0, 0, "", ""),
    ] {
        for (writer, text) in [
            (write_list as fn(_, _, &mut _) -> _, list),
            (write_mask, mask),
            (paper::write_list, list),
            (paper::write_mask, mask),
        ] {
            assert_eq!(
                written(writer, set, limit, text.len()),
                Ok(text.to_string())
            );
            assert_eq!(written(writer, set, limit, LIST_ROOM), Ok(text.to_string()));
            if !text.is_empty() {
                assert_eq!(written(writer, set, limit, text.len() - 1), Err(20));
            }
        }
        assert!(mask.len() <= MASK_ROOM);
    }
}

#[test]
fn above_the_limit_comes_before_too_short() {
    for writer in [
        write_list as fn(_, _, &mut _) -> _,
        write_mask,
        paper::write_list,
        paper::write_mask,
    ] {
        assert_eq!(written(writer, 32, 5, 0), Err(19));
        assert_eq!(written(writer, 32, 5, LIST_ROOM), Err(19));
        assert_eq!(written(writer, 1, 0, LIST_ROOM), Err(19));
    }
}
