//! The short cases of the format's description, called through the crate.

use juirkes::{convert, Refusal};

/// The number and line of a refused text, or 0 and the output.
fn answer(text: &str) -> (u64, usize, String) {
    let mut output = vec![b'?'; juirkes::OUTPUT_ROOM];
    match convert(text.as_bytes(), &mut output) {
        Ok(length) => {
            assert!(output[length..].iter().all(|&byte| byte == b'?'), "bytes past the length");
            (0, 0, String::from_utf8_lossy(&output[..length]).into_owned())
        }
        Err(refused) => {
            assert!(output.iter().all(|&byte| byte == b'?'), "bytes of a refused output");
            (refused.refusal.number(), refused.line, String::new())
        }
    }
}

/// Asserts the number and line of a refused text.
fn refused(text: &str, number: u64, line: usize) {
    assert_eq!(answer(text), (number, line, String::new()), "{text}");
}

/// Asserts the output of an accepted text.
fn accepted(text: &str, output: &str) {
    assert_eq!(answer(text), (0, 0, output.to_string()), "{text}");
}

#[test]
fn small_bases() {
    accepted("basis\tgrevlex\t2\t1\npoly\t1:0\nend\t1\n", "basis\tlex\t2\t1\npoly\t1:0\nstairs\nruns\t0\nend\t1\n");
    accepted("basis\tgrevlex\t2\t1\npoly\t1:1\nend\t1\n", "basis\tlex\t2\t1\npoly\t1:1\nstairs\t0\nruns\t1\nend\t1\n");
    accepted("basis\tgrevlex\t3\t1\npoly\t1:2\nend\t1\n", "basis\tlex\t3\t1\npoly\t1:2\nstairs\t0\t1\nruns\t2\nend\t1\n");
}

#[test]
fn refused_texts() {
    refused("", 2, 1);
    for n in 1..=4 {
        refused(&format!("basis\tgrevlex\t2\t{n}\nend\t0\n"), 13, 0);
    }
    refused("basis\tgrevlex\t1\t1\nend\t0\n", 4, 1);
    refused("basis\tgrevlex\t253\t1\nend\t0\n", 4, 1);
    refused("basis\tgrevlex\t251\t5\nend\t0\n", 5, 1);
    refused("basis\tgrevlex\t3\t0\nend\t0\n", 5, 1);
    refused("basis\tgrevlex\t3\t1\npoly\t0:1\nend\t1\n", 6, 2);
    refused("basis\tgrevlex\t3\t1\npoly\t3:1\nend\t1\n", 6, 2);
    refused("basis\tgrevlex\t2\t1\npoly\t1:33\nend\t1\n", 7, 2);
    refused("basis\tgrevlex\t2\t2\npoly\t1:3.0\npoly\t1:0.11\nend\t2\n", 14, 0);
    refused("basis\tgrevlex\t3\t2\npoly\t1:0.2\npoly\t1:1.1\t2:0.0\npoly\t1:2.0\nend\t3\n", 15, 3);
    refused("basis\tgrevlex\t2\t1\npoly\t1:1\npoly\t1:1\nend\t2\n", 12, 2);
    refused(&"x".repeat(juirkes::INPUT_LIMIT + 1), 1, 0);
}

#[test]
fn exact_and_short_room() {
    let input = b"basis\tgrevlex\t2\t1\npoly\t1:1\nend\t1\n";
    let output = b"basis\tlex\t2\t1\npoly\t1:1\nstairs\t0\nruns\t1\nend\t1\n";
    let mut exact = vec![0; output.len()];
    assert_eq!(convert(input, &mut exact), Ok(output.len()));
    assert_eq!(exact, output);
    let mut short = vec![9; output.len() - 1];
    let refused = convert(input, &mut short).unwrap_err();
    assert_eq!((refused.refusal, refused.line), (Refusal::OutputTooShort, 0));
    assert!(short.iter().all(|&byte| byte == 9));
}

#[test]
fn each_number_has_its_refusal() {
    for number in 1..=16 {
        assert_eq!(Refusal::from_number(number).map(Refusal::number), Some(number));
    }
    assert_eq!(Refusal::from_number(0), None);
    assert_eq!(Refusal::from_number(17), None);
}

#[test]
fn words_in_c() {
    let header = include_str!("../../c/juirkes.h");
    let refusals: Vec<Refusal> = (1..).map_while(Refusal::from_number).collect();
    assert_eq!(header.matches("return \"").count(), refusals.len() + 2, "a number of C without words, or more words");
    for refusal in refusals {
        assert!(header.contains(&format!("= {}", refusal.number())), "{refusal} has no number in C");
        assert!(header.contains(&format!("return \"{refusal}\";")), "{refusal} has other words in C");
    }
}
