//! Lines that cannot be read, and readable ones that look odd.

use crate::fields::hex;
use crate::kinds;
use crate::lists;
use crate::random::Random;
use crate::script::Script;

/// Lines with one thing wrong each.
const WRONG: [&str; 122] = [
    "",
    " ",
    "?",
    "0",
    "list",
    "list ",
    "list --",
    "list -00",
    "list 0",
    "list 000",
    "list 0A",
    "list 0g",
    "list 0x00",
    "list 00\r",
    "list\t00",
    "lists 00",
    "List 00",
    "check - -",
    "check - - - -",
    "write - - - 4097",
    "write - - - 65536",
    "write - - -",
    "write - - - ",
    "build - 4097",
    "build - 99999999999999999999999",
    "build - -1",
    "build - -",
    "build - +8",
    "build - 8.0",
    "build - 0x8",
    "build - 8 8",
    "read",
    "read - -",
    "open - 65536",
    "open -",
    "open - 1 2",
    "step 1",
    "step 1 2",
    "step 1 -1",
    "step 1 0 0",
    "step 65536 0",
    "step -1 0",
    "step 1 true",
    "step \u{0} 0",
    "step \u{661} 0",
    "poke tick 0",
    "poke tick 1 0",
    "poke ticks 0 0",
    "poke halted 0 256",
    "poke units 64 0",
    "poke from 256 0",
    "poke lo 1024 0",
    "poke hi 0 256",
    "poke  0 0",
    "poke slot 65536 0",
    "store 5",
    "store 5 0 0",
    "store 70001 0",
    "store 5 256",
    "store - 0",
    "store 5 ff",
    "put 0",
    "put 0 - -",
    "put 70001 -",
    "put 70000 00",
    "put - -",
    "put -1 -",
    "put 0 0",
    "put 0 0A",
    "put 0 ",
    "append",
    "append ",
    "append 0",
    "append 0G",
    "append - -",
    "append - 0",
    "cut -",
    "cut - 200001",
    "cut - 99999999999999999999999",
    "cut - -",
    "cut - 0 0",
    "cut 0 0",
    "cut 0 -",
    "newest 0",
    "newest ",
    " newest",
    "Newest",
    "listed 0",
    "listed -",
    "peek 0",
    "peek 0 0 0",
    "peek 0 4097",
    "peek 70001 0",
    "peek 70000 1",
    "peek - 0",
    "peek 0 -",
    "count",
    "count ",
    "count 00",
    "count 00 0",
    "count 00 0 ",
    "count 00  0",
    "count  0 0",
    "count 00 0 0 0",
    "count 00 0 0 ",
    " count 00 0 0",
    "counts 00 0 0",
    "Count 00 0 0",
    "count 0 0 0",
    "count 000 0 0",
    "count 0A 10 1",
    "count 0g 0 0",
    "count 0x00 0 0",
    "count -- 0 0",
    "count 00 65536 1",
    "count 00 0 65536",
    "count 00 4294967296 1",
    "count 00 0 18446744073709551616",
    "count 00 -1 1",
    "count 00 +0 1",
    "count 00 0 -",
    "count 00 ff 1",
];

/// Odd, and to be read all the same. The index of a single field is 0, however it is written. None
/// changes the log's store.
const ODD: [&str; 15] = [
    "list -",
    "check - - -",
    "build 00 004096",
    "write - - - 0",
    "step 007 01",
    "poke tick 000 0000065535",
    "poke lo 1023 000255",
    "put 000 -",
    "append -",
    "cut - 0",
    "cut - 0000200000",
    "peek 00 0",
    "count - 0 0",
    "count - 65535 65535",
    "count 0a0a 00000010 0000065535",
];

pub fn each_once(script: &mut Script) {
    script.ask("store 0000070000 00255");
    for line in WRONG {
        script.ask_unreadable(line.as_bytes());
    }
    for line in ODD {
        script.ask(line);
    }
}

pub fn request(script: &mut Script, random: &mut Random) {
    match random.below(10) {
        0..4 => script.ask_unreadable(random.pick(&WRONG).as_bytes()),
        4 => script.ask(random.pick(&ODD)),
        5 => script.ask_unreadable(&any_bytes(random)),
        _ => {
            let (word, bytes, numbers) = match random.below(4) {
                0 => ("build", lists::small(random).bytes(), "60"),
                1 => ("open", kinds::small_plan(random), "60"),
                2 => ("cut", kinds::small_plan(random), "60"),
                _ => ("count", kinds::small_plan(random), "0 60"),
            };
            script.ask_unreadable(&spoilt(random, word, &hex(&bytes), numbers));
        }
    }
}

fn any_bytes(random: &mut Random) -> Vec<u8> {
    let bytes = (0..random.below(40)).map(|_| random.below(256) as u8);
    bytes.filter(|&byte| byte != b'\n').collect()
}

/// A good request of bytes and numbers with one thing spoilt, somewhere in it.
fn spoilt(random: &mut Random, word: &str, hex: &str, numbers: &str) -> Vec<u8> {
    let mut line = format!("{word} {hex} {numbers}").into_bytes();
    let digits = word.len() + 1..word.len() + 1 + hex.len();
    let digit = random.within(digits.start, digits.end - 1);
    match random.below(6) {
        0 => {
            line.remove(digit);
        }
        1 => line[digit] = random.pick(b"ABCDEFGg/:@`-. \t\x00\x80\xff"),
        2 => line.insert(random.pick(&[0, digits.start, digits.end, line.len()]), b' '),
        3 => line.truncate(digits.end),
        4 => line.extend_from_slice(random.pick(&[&b" 0"[..], b" -", b"\r\r", b"00000", b" 6"])),
        _ => line[random.below(word.len())] ^= b' ',
    }
    line
}
