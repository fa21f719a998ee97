//! Lines of another form, made from good ones.

use crate::random::Random;
use crate::reach::LENGTHS;

type Damage = fn(&[u8], &mut Random) -> Vec<u8>;

const DAMAGES: [Damage; 15] = [
    random_bytes,
    byte_replaced,
    byte_inserted,
    byte_dropped,
    space_doubled,
    leading_zeros,
    lower_case,
    number_too_wide,
    space_replaced,
    something_before,
    something_after,
    field_dropped,
    nothing,
    overlong,
    widest,
];

/// The line with one kind of damage. It may by chance still be a command, and
/// may hold a newline.
pub fn damaged(line: &[u8], random: &mut Random) -> Vec<u8> {
    random.pick(&DAMAGES)(line, random)
}

/// Bytes that a careless reader takes for a space, a digit or an end.
const ODD: [&[u8]; 14] = [
    b"\0",
    b"\t",
    b"\r",
    b"\x0b",
    b"\x0c",
    b"\x1a",
    b"\x7f",
    b"\xa0",
    b"\xff",
    b"+",
    b"-",
    b".",
    b"_",
    b"\xef\xbc\x91",
];

fn random_bytes(_: &[u8], random: &mut Random) -> Vec<u8> {
    let length = random.below(40);
    (0..length).map(|_| random.byte()).collect()
}

fn byte_replaced(line: &[u8], random: &mut Random) -> Vec<u8> {
    let mut line = line.to_vec();
    let at = random.below(line.len());
    line[at] = random.byte();
    line
}

fn byte_inserted(line: &[u8], random: &mut Random) -> Vec<u8> {
    let odd = random.pick(&ODD);
    let at = random.below(line.len() + 1);
    [&line[..at], odd, &line[at..]].concat()
}

fn byte_dropped(line: &[u8], random: &mut Random) -> Vec<u8> {
    let at = random.below(line.len());
    [&line[..at], &line[at + 1..]].concat()
}

fn space_doubled(line: &[u8], random: &mut Random) -> Vec<u8> {
    alter_field(line, random, |field, _| [b" ", field].concat())
}

fn leading_zeros(line: &[u8], random: &mut Random) -> Vec<u8> {
    alter_field(line, random, |field, random| {
        let longer = random.below(30);
        let zeros = vec![b'0'; random.pick(&[1, 1, 2, 1 + longer])];
        [&zeros, field].concat()
    })
}

fn number_too_wide(line: &[u8], random: &mut Random) -> Vec<u8> {
    alter_field(line, random, |_, random| {
        let wide = [
            "256",
            "257",
            "319",
            "320",
            "511",
            "512",
            "1000",
            "65536",
            "4294967296",
            "18446744073709551615",
            "18446744073709551616",
            "18446744073709551617",
            "18446744073709551871",
            "18446744073709551872",
            "28446744073709551615",
            "99999999999999999999",
            "184467440737095516150",
            "340282366920938463463374607431768211456",
            "100000000000000000000000000000",
        ];
        random.pick(&wide).as_bytes().to_vec()
    })
}

fn field_dropped(line: &[u8], random: &mut Random) -> Vec<u8> {
    alter_field(line, random, |_, _| Vec::new())
}

/// Replaces one field after the letter; a line without one gets a field.
fn alter_field(
    line: &[u8],
    random: &mut Random,
    alter: impl Fn(&[u8], &mut Random) -> Vec<u8>,
) -> Vec<u8> {
    let mut fields: Vec<Vec<u8>> = line.split(|&b| b == b' ').map(<[u8]>::to_vec).collect();
    if fields.len() == 1 {
        fields.push(b"0".to_vec());
    }
    let at = 1 + random.below(fields.len() - 1);
    fields[at] = alter(&fields[at], random);
    fields.join(&b' ')
}

fn lower_case(line: &[u8], _: &mut Random) -> Vec<u8> {
    line.to_ascii_lowercase()
}

fn space_replaced(line: &[u8], random: &mut Random) -> Vec<u8> {
    let odd = random.pick(&[b'\t', b'\r', 0, b',', 0xa0]);
    let replace = |&byte: &u8| if byte == b' ' { odd } else { byte };
    line.iter().map(replace).collect()
}

fn something_before(line: &[u8], random: &mut Random) -> Vec<u8> {
    let before: [&[u8]; 6] = [b" ", b"\t", b"\0", b"\r", b"\xef\xbb\xbf", b"0 "];
    [random.pick(&before), line].concat()
}

fn something_after(line: &[u8], random: &mut Random) -> Vec<u8> {
    let after: [&[u8]; 8] = [b" ", b"\t", b"\r", b"\0", b" 0", b"0", b"\xff", b" #"];
    [line, random.pick(&after)].concat()
}

fn nothing(_: &[u8], _: &mut Random) -> Vec<u8> {
    Vec::new()
}

/// A line longer than any command: just longer, around a page, or far longer.
pub fn overlong(line: &[u8], random: &mut Random) -> Vec<u8> {
    let filler: [&[u8]; 7] = [b"0", b"7", b" ", b" 0", b"T", b"\0", b"\xff"];
    let filler = random.pick(&filler);
    let length = match random.below(12) {
        0 => 70_000,
        1..=3 => random.pick(&[255, 256, 257, 1023, 1024]),
        4..=6 => random.pick(&LENGTHS),
        7 => 1_000 + random.below(8_000),
        _ => 30 + random.below(30),
    };
    let mut line = match random.one_in(3) {
        true => Vec::new(),
        false => line.to_vec(),
    };
    while line.len() < length {
        line.extend_from_slice(filler);
    }
    line
}

/// The longest line of a form, or a little more than it.
fn widest(_: &[u8], random: &mut Random) -> Vec<u8> {
    let widest: [&[u8]; 4] = [
        b"J 255 18446744073709551615 255 255",
        b"D 255 255 255 255 255",
        b"F 255 18446744073709551615",
        b"L 255",
    ];
    let more: [&[u8]; 7] = [b"", b"", b"5", b" ", b" 0", b"\r", b"x"];
    [random.pick(&widest), random.pick(&more)].concat()
}
