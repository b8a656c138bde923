//! The command stream.
mod common;
use common::*;
use reference::drive::drive;

fn driven(commands: &[u8]) -> String {
    String::from_utf8(drive(commands)).unwrap()
}

fn le(words: &[u16]) -> Vec<u8> {
    words.iter().flat_map(|word| word.to_le_bytes()).collect()
}

fn flatten_command(work: usize, net: usize, text: &str) -> Vec<u8> {
    format!("flatten {work} {net} {}\n{text}", text.len()).into_bytes()
}

const ODD_WORDS: &str = "3 1 8 5 8 65535 65535 65535 4 4 4 0 65535 5 4 5 1 65535 6 4 6 2 65535 7 \
                         0 7 65535 65535 3";

#[test]
fn nothing_to_do() {
    assert_eq!(driven(b""), "");
}

#[test]
fn one_of_each() {
    let words = done(ODD).0.to_words();
    let mut stream = flatten_command(16384, 5124, ODD);
    stream.extend(flatten_command(16383, 5124, ODD));
    stream.extend(flatten_command(20000, 8000, "BLOCK main [] [] BEGIN ?"));
    stream.extend(format!("run 1536 {} 3\n", words.len()).bytes());
    stream.extend(le(&words));
    stream.extend([1, 1, 0]);
    stream.extend(format!("write 65536 {}\n", words.len()).bytes());
    stream.extend(le(&words));
    stream.extend(b"write 0 0\n");
    stream.extend(format!("read 5124 {}\n{ODD_FLAT}", ODD_FLAT.len()).bytes());
    stream.extend(b"read 5124 2\nhi");
    let expected = format!(
        "flatten 0 0 10 0\nwords {ODD_WORDS}\nflatten 1 0 0 0\nwords\nflatten 3 23 0 0\nwords\n\
         run 0\nvalues 1 1 0 0 0 1\nwrite 0 {} 0\ntext\n{ODD_FLAT}write 1 0 0\ntext\n\
         read 0\nwords {ODD_WORDS}\nread 19\nwords\n",
        ODD_FLAT.len()
    );
    assert_eq!(driven(&stream), expected);
}

#[test]
fn largest_numbers() {
    let bad = "drive: bad command\n";
    assert_eq!(driven(b"flatten 20000 8000 0\n"), "flatten 4 0 0 0\nwords\n");
    assert_eq!(driven(b"flatten 20001 8000 0\n"), bad);
    assert_eq!(driven(b"flatten 20000 8001 0\n"), bad);
    let mut long = b"flatten 20000 8000 70000\n".to_vec();
    long.extend(vec![b' '; 70_000]);
    assert_eq!(driven(&long), "flatten 2 0 0 0\nwords\n");
    let mut long = b"flatten 20000 8000 70001\n".to_vec();
    long.extend(vec![b' '; 70_001]);
    assert_eq!(driven(&long), bad);
    assert_eq!(driven(b"run 4000 0 0\n"), "run 19\nvalues\n");
    assert_eq!(driven(b"run 4001 0 0\n"), bad);
    assert_eq!(driven(b"run 4000 8001 0\n"), bad);
    assert_eq!(driven(b"run 4000 0 4001\n"), bad);
    assert_eq!(driven(b"write 70000 0\n"), "write 19 0 0\ntext\n");
    assert_eq!(driven(b"write 70001 0\n"), bad);
    assert_eq!(driven(b"read 8000 0\n"), "read 19\nwords\n");
    assert_eq!(driven(b"read 8001 0\n"), bad);
    assert_eq!(driven(b"read 99999999999999999999999999 0\n"), bad);
}

#[test]
fn bad_commands() {
    let bad: [&[u8]; 22] = [
        b"\n",
        b"read",
        b"read 0 0",
        b"read\n",
        b"read 0\n",
        b"read 0 0 0\n",
        b"read  0 0\n",
        b" read 0 0\n",
        b"read 0 0 \n",
        b"read 0 0\r\n",
        b"read 0 -0\n",
        b"read 0 +0\n",
        b"read 0 0x\n",
        b"read 0\t0\n",
        b"Read 0 0\n",
        b"reads 0 0\n",
        b"\xff\n",
        b"read 0 1\n",
        b"write 0 1\nx",
        b"run 0 1 1\nxx",
        b"flatten 0 0\n",
        b"run 0 1 1\nxxx\n",
    ];
    for command in bad {
        let printed = driven(command);
        assert!(printed.ends_with("drive: bad command\n"), "{command:?} {printed}");
    }
    // What came before is answered, what comes after is not looked at.
    let printed = driven(b"read 0 0\nnix\nread 0 0\n");
    assert_eq!(printed, "read 1\nwords\ndrive: bad command\n");
}
