//! The example of document 01, and every kind of fault.

use crate::{MOST_BYTES, run};
use harness::SEATS;

const EXAMPLE: &str = "width height\n3 3\ntiles\n0 0 0\n0 0 0\n0 0 0\ncall a b c d e f\n\
                       1 0 48 48 0 0 0\n4 0 0 0 0 0 0\n";

const HEADING: &str = "call answer id tick x y vel_x vel_y angle direction jumped hooked_player \
                       hook_state hook_tick hook_x hook_y hook_dx hook_dy\n";

const JOINED: &str = "1 0 -1 0 0 0 0 0 0 0 0 0 0 0 0 0 0 0\n";
const STEPPED: &str = "2 0 0 0 48 49 0 128 0 0 0 -1 0 0 0 0 0 0\n";

fn output(text: &[u8]) -> String {
    let mut out = Vec::new();
    run(text, &mut out).expect("a vector takes all");
    String::from_utf8(out).expect("digits and names")
}

/// The one line where nobody is published.
fn nobody(number: usize, answer: u32) -> String {
    format!("{number} {answer} -1 0 0 0 0 0 0 0 0 0 0 0 0 0 0 0\n")
}

fn assert_prints(text: impl AsRef<[u8]>, lines: &[&str]) {
    let text = text.as_ref();
    let expected = format!("{HEADING}{}", lines.concat());
    assert_eq!(output(text), expected, "{}", text.escape_ascii());
}

/// At fault before the first call.
fn assert_no_call(text: impl AsRef<[u8]>) {
    assert_prints(text, &[&nobody(1, 6)]);
}

/// After the example.
fn assert_third_call_is(line: impl AsRef<[u8]>, answer: u32) {
    let text = [EXAMPLE.as_bytes(), line.as_ref()].concat();
    assert_prints(text, &[JOINED, STEPPED, &nobody(3, answer)]);
}

/// The example with another text in place of one that it has once.
fn changed(from: &str, to: &str) -> String {
    assert_eq!(EXAMPLE.matches(from).count(), 1);
    EXAMPLE.replace(from, to)
}

#[test]
fn the_example() {
    assert_prints(EXAMPLE, &[JOINED, STEPPED]);
}

#[test]
fn no_calls() {
    let end = EXAMPLE.find("1 0 48").expect("the first call");
    assert_prints(&EXAMPLE[..end], &[]);
}

#[test]
fn accepted_and_refused_calls() {
    assert_third_call_is("2 0 0 0 0 0 0\n", 0);
    assert_third_call_is("3 0 -1 2147483647 -2147483648 5 -6\n", 0);
    assert_third_call_is("5 17 -2147483648 0 0 0 0\n", 0);
    assert_third_call_is("2 63 0 0 0 0 0\n", 8);
    assert_third_call_is("2 64 0 0 0 0 0\n", 2);
    assert_third_call_is("5 19 0 0 0 0 0\n", 3);
    assert_third_call_is("5 18 0 0 0 0 0\n", 16);
    assert_third_call_is("5 18 1 0 0 0 0\n", 0);
    assert_third_call_is("5 18 60 0 0 0 0\n", 0);
    assert_third_call_is("5 18 61 0 0 0 0\n", 16);
    assert_third_call_is("1 0 100001 0 0 0 0\n", 4);
    assert_third_call_is("1 0 48 48 0 0 0\n", 7);
    assert_third_call_is("3 1 0 0 0 0 0\n", 8);
}

#[test]
fn a_step_with_nobody() {
    let text = changed("1 0 48 48 0 0 0\n", "");
    assert_prints(text, &[&nobody(1, 0)]);
}

/// By rising id, whatever the order in which they came.
#[test]
fn a_step_with_everybody() {
    let join = |id: usize| format!("1 {id} {} 48 0 0 0\n", 100 * id);
    let joins: String = (0..SEATS).rev().map(join).collect();
    let text = changed("1 0 48 48 0 0 0\n", &joins);
    let record = |id: usize| {
        let number = SEATS + 1;
        format!(
            "{number} 0 {id} 0 {} 49 0 128 0 0 0 -1 0 0 0 0 0 0\n",
            100 * id
        )
    };
    let mut lines: Vec<String> = (1..=SEATS).map(|number| nobody(number, 0)).collect();
    lines.extend((0..SEATS).map(record));
    assert_prints(
        text,
        &lines.iter().map(String::as_str).collect::<Vec<&str>>(),
    );
}

/// The record of who is removed is printed, and nothing else for it.
#[test]
fn spikes_are_clear_and_deadly() {
    let text = changed("tiles\n0 0 0\n0 0 0\n", "tiles\n0 0 0\n0 2 0\n");
    let text = text + "4 0 0 0 0 0 0\n2 0 0 0 0 0 0\n";
    assert_prints(text, &[JOINED, STEPPED, &nobody(3, 0), &nobody(4, 8)]);
}

#[test]
fn a_wall_is_not_clear() {
    let text = changed("tiles\n0 0 0\n0 0 0\n", "tiles\n0 0 0\n0 3 0\n");
    assert_prints(text, &[&nobody(1, 5), &nobody(2, 0)]);
}

/// What is at fault is no call, whatever its values.
#[test]
fn calls_at_fault() {
    let lines = [
        "0 0 0 0 0 0 0\n",
        "6 0 0 0 0 0 0\n",
        "-1 0 0 0 0 0 0\n",
        "1 64 48 48 1 0 0\n",
        "1 1 48 48 0 -1 0\n",
        "1 1 48 48 0 0 1\n",
        "2 0 1 0 0 0 0\n",
        "4 0 0 0 0 0 1\n",
        "4 1 0 0 0 0 0\n",
        "5 1 1 1 0 0 0\n",
        "4 0 0 0 0 0\n",
        "4 0 0 0 0 0 0 0\n",
        "4\n",
        "\n",
        " \n",
        "call a b c d e f\n",
    ];
    for line in lines {
        assert_third_call_is(line, 6);
    }
}

#[test]
fn values_at_fault() {
    for word in [
        "",
        "-",
        "+1",
        "-0",
        "00",
        "01",
        "-01",
        "+0",
        "1.0",
        "1e3",
        "0x1",
        "a",
        "--1",
        "1-",
        "2147483648",
        "-2147483649",
        "4294967296",
        "18446744073709551617",
        "\t1",
        "1\t",
        "1 ",
        " 1",
        "1\r",
        "1\0",
        "\u{661}",
        "1,",
        "\u{2212}1",
    ] {
        assert_third_call_is(format!("5 0 {word} 0 0 0 0\n"), 6);
    }
    assert_third_call_is(b"5 0 \xb1 0 0 0 0\n", 6);
}

#[test]
fn lines_at_fault() {
    for line in [
        " 4 0 0 0 0 0 0\n",
        "4 0 0 0 0 0 0 \n",
        "4  0 0 0 0 0 0\n",
        "4\t0 0 0 0 0 0\n",
        "4 0 0 0 0 0 0\r\n",
        "4 0 0 0 0 0 0",
        "4 0 0 0 0 0 0\0",
        "4",
    ] {
        assert_third_call_is(line, 6);
    }
}

#[test]
fn the_rest_after_a_fault_is_not_run() {
    assert_third_call_is("\n4 0 0 0 0 0 0\n4 0 0 0 0 0 0\n", 6);
}

/// Cut within the map there is no call; cut within a call its last line is at fault.
#[test]
fn texts_cut_off() {
    let first = EXAMPLE.find("1 0 48").expect("the first call");
    let second = EXAMPLE.find("4 0").expect("the second call");
    for end in 0..first {
        assert_no_call(&EXAMPLE[..end]);
    }
    for end in first + 1..second {
        assert_no_call(&EXAMPLE[..end]);
    }
    for end in second + 1..EXAMPLE.len() {
        assert_prints(&EXAMPLE[..end], &[JOINED, &nobody(2, 6)]);
    }
}

#[test]
fn maps_at_fault() {
    for sides in [
        "0 3",
        "3 0",
        "-3 3",
        "3 -3",
        "1025 3",
        "3 1025",
        "3",
        "3 3 3",
        "3  3",
        " 3 3",
        "3 3 ",
        "03 3",
        "3 2",
        "2 3",
        "4 3",
        "3 4",
        "4294967299 3",
    ] {
        assert_no_call(changed("3 3", sides));
    }
    for row in [
        "0 0 256", "0 0 -1", "0 0", "0 0 0 0", "", "0  0 0", " 0 0 0", "0 0 0 ", "0 0 00",
        "0 0 -0", "0 0 +0", "0 0 a", "0\t0 0", "0 0 0\r",
    ] {
        assert_no_call(changed("tiles\n0 0 0\n", &format!("tiles\n{row}\n")));
    }
    let text = changed("tiles\n0 0 0\n", "tiles\n255 2 4\n");
    assert_prints(text, &[JOINED, STEPPED]);
}

#[test]
fn names_at_fault() {
    for names in ["width height\n", "tiles\n", "call a b c d e f\n"] {
        let name = names.trim_end();
        for wrong in [
            String::new(),
            "\n".into(),
            format!(" {name}\n"),
            format!("{name} \n"),
            format!("{name}\r\n"),
            format!("{}\n", name.to_uppercase()),
            format!("{}\n", &name[1..]),
            format!("{}\n", &name[..name.len() - 1]),
            format!("{names}{names}"),
        ] {
            assert_no_call(changed(names, &wrong));
        }
    }
    assert_no_call(changed("width height", "width  height"));
    assert_no_call(changed("call a b", "call\ta b"));
}

/// Steps with nobody, and an input that fills the text up.
fn text_of(length: usize) -> String {
    let step = "4 0 0 0 0 0 0\n";
    let begin = changed("1 0 48 48 0 0 0\n4 0 0 0 0 0 0\n", "");
    let (lines, more) = (
        (length - begin.len()) / step.len(),
        (length - begin.len()) % step.len(),
    );
    let steps = step.repeat(lines - 1);
    let (x, y) = ("0".repeat(more / 2), "0".repeat(more - more / 2));
    format!("{begin}{steps}3 0 1{x} 1{y} 0 0 0\n")
}

#[test]
fn the_longest_text_runs() {
    let text = text_of(MOST_BYTES);
    assert_eq!(text.len(), MOST_BYTES);
    let calls = text.lines().count() - 7;
    let printed = output(text.as_bytes());
    assert_eq!(printed.lines().count(), calls + 1);
    assert!(printed.ends_with(&nobody(calls, 8)));
    for length in [MOST_BYTES + 1, MOST_BYTES + 2, 2 * MOST_BYTES] {
        assert_no_call(text_of(length));
    }
}

#[test]
fn wide_and_high_maps() {
    for (width, height) in [(1024, 1), (1, 1024), (1024, 16)] {
        let row = vec!["0"; width].join(" ") + "\n";
        let rows = row.repeat(height);
        let text = changed("3 3\n", &format!("{width} {height}\n"));
        let text = text.replace("tiles\n0 0 0\n0 0 0\n0 0 0\n", &format!("tiles\n{rows}"));
        assert_prints(text, &[JOINED, STEPPED]);
    }
}
