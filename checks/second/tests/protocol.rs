//! The line protocol and the commands: every example of the README, lines that are no call, and the program itself.

use std::collections::HashSet;
use std::io::Write;
use std::process::{Command, Output, Stdio};

use second::answer::{answer, BAD_LINE, MOST_NUMBERS};

const README: &str = include_str!("../README.md");

const CALLS: [&str; 17] = [
    "places",
    "record_bytes",
    "make",
    "turn_back",
    "rebuild",
    "level",
    "write_record",
    "read_record",
    "open",
    "ask",
    "ask_view",
    "edges",
    "stopped",
    "finished",
    "join",
    "day_change",
    "print",
];

/// Every call of the README's examples with its answer.
fn examples() -> Vec<(&'static str, &'static str)> {
    let lines: Vec<&str> = README.lines().collect();
    let calls = lines.iter().filter(|line| line.starts_with("> ")).count();
    let examples: Vec<_> =
        lines.windows(2).filter_map(|two| Some((two[0].strip_prefix("> ")?, two[1].strip_prefix("< ")?))).collect();
    assert_eq!(examples.len(), calls, "each call of the README has its answer below it");
    examples
}

fn run(arguments: &[&str], input: &[u8]) -> Output {
    let mut child = Command::new(env!("CARGO_BIN_EXE_second"))
        .args(arguments)
        .stdin(Stdio::piped())
        .stdout(Stdio::piped())
        .stderr(Stdio::piped())
        .spawn()
        .expect("the program starts");
    child.stdin.take().expect("its input is lent").write_all(input).expect("it reads its input");
    child.wait_with_output().expect("the program ends")
}

#[test]
fn every_example_of_the_readme() {
    let mut names = HashSet::new();
    for (call, expected) in examples() {
        assert_eq!(answer(call.as_bytes()), expected, "{call}");
        names.extend(call.split(' ').next());
    }
    assert_eq!(names, HashSet::from(CALLS), "the README has an example of every call");
    for name in CALLS {
        assert!(README.contains(&format!("\n| `{name} ")), "the README's table has the call {name}");
    }
}

#[test]
fn the_printer_byte_by_byte() {
    let shown = |text: &str| text.bytes().map(|byte| format!(" {byte}")).collect::<String>();
    let input = shown(second::printer::EXAMPLE);
    let output = shown(&String::from_utf8(second::print(second::printer::EXAMPLE.as_bytes())).unwrap());
    assert!(output.ends_with(" 32 55 10"), "the last count is 7");
    assert_eq!(answer(format!("print |{input}").as_bytes()), format!("printed |{output}"));
}

#[test]
fn the_program_answers_line_by_line() {
    let (calls, answers): (Vec<&str>, Vec<&str>) = examples().into_iter().unzip();
    for end in ["\n", ""] {
        let given = run(&["answer"], (calls.join("\n") + end).as_bytes());
        assert!(given.status.success());
        assert_eq!(String::from_utf8(given.stdout).unwrap(), answers.join("\n") + "\n");
    }
    assert_eq!(run(&["answer"], b"").stdout, b"");
    assert_eq!(run(&["answer"], b"\n\nedges 1 0 1 1 0\n").stdout, b"bad line\nbad line\ntaken 0 1\n");
}

#[test]
fn the_program_prints() {
    let input = second::printer::EXAMPLE;
    let drawn = run(&["print"], input.as_bytes());
    assert!(drawn.status.success());
    let drawn = String::from_utf8(drawn.stdout).unwrap();
    assert!(README.contains(&format!("```\n{drawn}```")), "the README shows the columns");
    assert_eq!(drawn.lines().count(), 4);
    assert_eq!(run(&["example"], b"").stdout, format!("{input}\n{drawn}").into_bytes());
    let refused = run(&["print"], b"0 1 1\n5\n\n");
    assert_eq!((refused.status.success(), &refused.stdout[..]), (true, &b"refused 12 at 3\n"[..]));
}

#[test]
fn other_commands_are_not_taken() {
    for arguments in [&[][..], &["draw"], &["print", "more"], &["--help"]] {
        let given = run(arguments, b"");
        assert_eq!(given.status.code(), Some(2), "{arguments:?}");
        assert_eq!(given.stdout, b"", "{arguments:?}");
        assert!(given.stderr.starts_with(b"usage: "), "{arguments:?}");
    }
}

#[test]
fn spaces_and_repeats() {
    let expected = "taken | 7 9 9 | 1";
    for call in [
        "make 2 | 7 9 | 0 0 9 | 0",
        "make 2|7 9|0 0 9|0",
        "  make   002 |  7   09| 0*2 9 |0 ",
        "make 2 | 7*1 9 | 5*0 0*1 0*1 9*01 | 0",
    ] {
        assert_eq!(answer(call.as_bytes()), expected, "{call:?}");
    }
    let all = answer(b"make 16384 | -7*16384 | 0*16384 | 4*8192");
    assert_eq!(all, format!("taken | -7 -7{} |{}", " 0".repeat(16_382), " 0".repeat(8_192)));
}

#[test]
fn lines_that_are_no_call() {
    let bad = [
        "",
        " ",
        "|",
        "| 1",
        "take 2",
        "Make 2 | 7 9 | 0 0 | 0",
        "make",
        "make 2",
        "make | 7 9 | 0 0 | 0",
        "make 2 3 | 7 9 | 0 0 | 0",
        "make 2 | 7 9 | 0 0 | 0 |",
        "make 2 | 7 9 | 0 0",
        "make -2 | 7 9 | 0 0 | 0",
        "make 2 | 7 2147483648 | 0 0 | 0",
        "make 2 | 7 -2147483649 | 0 0 | 0",
        "make 2 | 7 9 | 0 0 | 256",
        "make 2 | 7 9 | 0 0 | -1",
        "make 2 | 7 - | 0 0 | 0",
        "make 2 | 7 x | 0 0 | 0",
        "make 2 | 7 9. | 0 0 | 0",
        "make 2 | 7* | 0 0 | 0",
        "make 2 | *7 | 0 0 | 0",
        "make 2 | 7*2*2 | 0 0 | 0",
        "make 2 | 7*-1 | 0 0 | 0",
        "make 2 | 7 * 2 | 0 0 | 0",
        "make 2 | 7\t9 | 0 0 | 0",
        "make 2 | 7 9 | 0 0 | 0\r",
        "make 2*1 | 7 9 | 0 0 | 0",
        "make 18446744073709551616 | 7 9 | 0 0 | 0",
        "turn_back 2 | 7 9 | 0",
        "rebuild 1 | 5 | 1 | 0",
        "rebuild 1 5 5 | 5 | 1 | 0",
        "rebuild -1 5 | 5 | 1 | 0",
        "rebuild 1 - | 5 | 1 | 0",
        "rebuild 1 x | 5 | 1 | 0",
        "rebuild 1 2147483648 | 0 | 1 | 0",
        "rebuild 1 -2147483649 | 65535 | 1 | 0",
        "rebuild 1 5 | -1 | 1 | 0",
        "rebuild 1 5 | 65536 | 1 | 0",
        "rebuild 1 5 | 5 | 256 | 0",
        "rebuild 1 5 | 5 | 1 | 2147483648",
        "rebuild 1 5 | 5 | 1",
        "rebuild 1 5 | 5 | 1 | 0 | 0",
        "level 7 | 1 2",
        "level 7 1",
        "write_record 2 | 5 5 | 0",
        "read_record 2 | 0 | 0 | 0",
        "read_record | 0 | 0",
        "open",
        "open 1 | 0",
        "open | 300",
        "ask | 0",
        "ask 1",
        "ask_view 1 | 0",
        "edges 64 0 64 3",
        "edges 64 0 64 3 1 |",
        "edges 64 0 64 3 x",
        "stopped 7 0 7 3 0 | 0*8 | 0*4",
        "finished 7 0 7 3 0 1 | 0*8 | 0*4",
        "finished 7 0 7 3 0 | 0*8",
        "join | - - - - - -",
        "join | - | -",
        "join | 1 - - - - - | - - - - - -",
        "join | 1 2 3 4 5 | - - - - - -",
        "join | 1 2 3 4 5 6 7 | - - - - - -",
        "join | -1 2 3 4 5 6 | - - - - - -",
        "join 1 | - - - - - - | - - - - - -",
        "day_change 7 | 0*8 | 0*4",
        "print",
        "print 1 | 48",
        "print | 256",
        "print | 48 | 49",
    ];
    for line in bad {
        assert_eq!(answer(line.as_bytes()), BAD_LINE, "{line:?}");
    }
    assert_eq!(answer(b"open | \xff"), BAD_LINE);
    assert_eq!(answer(b"open |\xc2\xa0"), BAD_LINE);
}

#[test]
fn buffers_have_a_greatest_length() {
    let most = format!("level 16385 0 | 0*{MOST_NUMBERS}");
    assert_eq!(answer(most.as_bytes()), "stretch 0 0 |");
    assert_eq!(answer(format!("{most} 0").as_bytes()), BAD_LINE);
    assert_eq!(answer(b"open | 0*1048577"), BAD_LINE);
    assert_eq!(answer(b"open | 0*18446744073709551615"), BAD_LINE);
    assert_eq!(answer(b"open | 0*18446744073709551616"), BAD_LINE);
    assert_eq!(answer(b"open | 0*1048576"), "refused 9 at 0");
}
