//! The load program against the reference's, on random and damaged inputs, and the chain program on what it prints.

use comparisons::chains::setting;
use comparisons::loads::{any, lines};
use comparisons::programs::{compare, program, WAYS};
use comparisons::seed::{generator, seed};
use comparisons::settings;
use comparisons::tally::Tally;
use reference::load_files::all;
use reference::rng::Rng;
use reference::settings::{Parameters, LIST};
use reference::{chain, load};
use std::fs::{File, OpenOptions};
use std::io::{Read, Write};
use std::os::fd::OwnedFd;
use std::os::unix::net::UnixDatagram;
use std::process::{Command, Output, Stdio};
use std::sync::mpsc;
use std::thread;
use std::time::Duration;

/// How a run can end: with a chain file that the chain program takes, or refused at a line with a number.
const ENDS: [&str; 11] = [
    "taken", "refused 1 1", "refused 1 2", "refused 1 3", "refused 1 4", "refused 1 5", "refused 1 6", "refused 1 13",
    "refused 1 14", "refused 2 13", "refused 3 13",
];

/// Compare the chain program with the reference on a printed chain file, and ask that it takes all of it.
fn follow(file: &str, rng: &mut Rng, place: &str) {
    let expected = String::from_utf8(chain::run(file.as_bytes())).expect("the reference prints text");
    compare(&program("foldchain"), file.as_bytes(), &expected, rng, place);
    let folds = file.lines().filter(|line| line.starts_with("c\t")).count();
    let last = expected.lines().last().unwrap_or_default();
    assert_eq!(last, format!("end\t{folds}\tmember"), "seed {}, {place}", seed());
}

/// Compare the load program with the reference on an input, and give what it prints to the chain program; how the load
/// program was fed.
fn compare_load(input: &[u8], rng: &mut Rng, tally: &mut Tally, place: &str) -> &'static str {
    let expected = String::from_utf8(load::run(input)).expect("the reference prints text");
    let way = compare(&program("foldload"), input, &expected, rng, place);
    if expected.starts_with("refused") {
        tally.case(&expected.trim_end().replace('\t', " "));
    } else {
        follow(&expected, rng, place);
        tally.case("taken");
    }
    way
}

/// Half of the random inputs. Two tests of one half each run side by side.
fn random(name: &str) {
    let (mut rng, mut tally) = (generator(name), Tally::new(name));
    for case in 0..2000 {
        let input = any(&mut rng);
        let way = compare_load(&input, &mut rng, &mut tally, &format!("case {case}"));
        tally.note(way);
    }
    tally.finish(&[&ENDS[..], &WAYS].concat());
}

#[test]
fn random_loads() {
    random("random_loads");
}

#[test]
fn more_random_loads() {
    random("more_random_loads");
}

/// A setting of the programs with the longest lines.
const LONGEST: Parameters = settings::setting(8, 16, 2, 13, 3937376385699288);

#[test]
fn thousand_leaves() {
    let (mut rng, mut tally) = (generator("thousand_leaves"), Tally::new("thousand_leaves"));
    let mut settings = vec![LIST[0], LIST[1], LONGEST];
    settings.extend((0..5).map(|_| setting(&mut rng)));
    for p in settings {
        let input = lines(&mut rng, &p, 1000).concat();
        compare_load(&input, &mut rng, &mut tally, &format!("1000 leaves at {p:?}"));
    }
    tally.finish(&["taken"]);
}

#[test]
fn stored_loads() {
    let (mut rng, mut tally) = (generator("stored_loads"), Tally::new("stored_loads"));
    for file in all() {
        let way = compare_load(&file.input, &mut rng, &mut tally, &file.name);
        tally.note(way);
    }
    tally.finish(&[&ENDS[..], &WAYS].concat());
}

/// Inputs whose output is a refusal, short, and longer than any buffer.
fn outputs_of_all_sizes() -> [Vec<u8>; 3] {
    let mut rng = generator("outputs_of_all_sizes");
    [Vec::new(), lines(&mut rng, &LIST[0], 2).concat(), lines(&mut rng, &LONGEST, 1000).concat()]
}

/// Run a command that is given this input, small enough for a pipe; what it wrote.
fn run_with(mut command: Command, input: &[u8]) -> Output {
    let mut child = command.stdin(Stdio::piped()).stderr(Stdio::piped()).spawn().expect("the program can be run");
    child.stdin.take().expect("a pipe").write_all(input).expect("the pipe takes the input");
    child.wait_with_output().expect("the program ends")
}

/// A file of more than 65,536 bytes goes out in one write: a socket of datagrams keeps what each write was given.
#[test]
fn file_in_one_write() {
    let input = lines(&mut generator("file_in_one_write"), &LIST[1], 600).concat();
    let expected = load::run(&input);
    assert!(expected.len() > 65536);
    let (reader, writer) = UnixDatagram::pair().expect("a socket");
    let mut command = Command::new(program("foldload"));
    command.stdout(OwnedFd::from(writer));
    let output = run_with(command, &input);
    assert!(output.stderr.is_empty(), "{}", String::from_utf8_lossy(&output.stderr));
    let mut first = vec![0; expected.len() + 1];
    let length = reader.recv(&mut first).expect("what was written can be read");
    assert!(first[..length] == expected, "the first write has {length} bytes, the file {}", expected.len());
}

/// Ask for one sentence on standard error, a whole line, and for nothing on standard output.
fn says_one_sentence(output: &Output, place: &str) {
    let said = String::from_utf8(output.stderr.clone()).expect("a sentence is text");
    assert!(said.len() > 1 && said.ends_with('\n') && said.lines().count() == 1, "{place}: {said:?}");
    assert!(output.stdout.is_empty(), "{place}");
}

#[test]
fn output_that_cannot_be_written() {
    for input in outputs_of_all_sizes() {
        let mut full = Command::new(program("foldload"));
        full.stdout(OpenOptions::new().write(true).open("/dev/full").expect("there is /dev/full"));
        says_one_sentence(&run_with(full, &input), "a full device");
        let mut closed = Command::new("sh");
        closed.args(["-c", "exec \"$0\" >&-"]).arg(program("foldload")).stdout(Stdio::piped());
        says_one_sentence(&run_with(closed, &input), "a closed output");
    }
}

#[test]
fn input_that_cannot_be_read() {
    let folder = File::open(env!("CARGO_MANIFEST_DIR")).expect("the folder of this crate");
    let output = Command::new(program("foldload")).stdin(folder).output().expect("the program can be run");
    says_one_sentence(&output, "a folder as input");
}

/// Ask that nothing is printed while the input stays open, and all when it ends.
fn waits_for_the_end(input: &[u8]) {
    let mut command = Command::new(program("foldload"));
    let mut child = command.stdin(Stdio::piped()).stdout(Stdio::piped()).spawn().expect("the program can be run");
    let (mut stdin, mut stdout) = (child.stdin.take().expect("a pipe"), child.stdout.take().expect("a pipe"));
    let (sender, receiver) = mpsc::channel();
    let reader = thread::spawn(move || {
        let mut first = [0];
        let count = stdout.read(&mut first).expect("the output can be read");
        sender.send(()).expect("the test waits");
        let mut rest = first[..count].to_vec();
        stdout.read_to_end(&mut rest).expect("the output can be read");
        rest
    });
    stdin.write_all(input).expect("the pipe takes the input");
    let early = receiver.recv_timeout(Duration::from_millis(200));
    assert!(early.is_err(), "something came before the end of the input");
    drop(stdin);
    let output = reader.join().expect("the reader does not panic");
    assert!(output == load::run(input), "another output than the reference's");
    child.wait().expect("the program ends");
}

#[test]
fn input_that_stays_open() {
    for input in outputs_of_all_sizes() {
        waits_for_the_end(&input);
    }
    waits_for_the_end(b"param\t1\t1\t1\t2\t99\n");
}
