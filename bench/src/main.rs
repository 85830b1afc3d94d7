//! Times of the archive's calls beside the plain reading's, all taken in one run:
//! for each case the rounds of all that is timed take turns, so that noise hits
//! them alike, and the best round counts. Buffers are filled before, and rooms
//! for answers are lent again and again without being cleared.

mod callgrind;
mod padding;

use std::hint::black_box;
use std::time::Instant;

use reading::archive::{
    self, composer, packed, packed_added, packed_low, packed_plain, packed_release,
};
use reading::archive::{packed_compared, packed_why, packed_written, MONTH_WORDS};
use reading::composer::{compose, Nonce};
use reading::day::{self, file_of, form_of, Form, VERSION_1, VERSION_2};
use reading::generate::days::message_of_length;
use reading::generate::{self, Random, Settings};
use reading::month::{Month, BOUNDS};
use reading::vectors::hex;
use reading::{check_message, check_single, Answer, Row, ENTRY, LIMITS};

const ROUNDS: usize = 25;

/// What each round of one run takes, about.
const ROUND_NS: f64 = 2e6;

/// Something to be timed, pass by pass.
struct Run<'a> {
    name: &'static str,
    calls_a_pass: usize,
    pass: Box<dyn FnMut() + 'a>,
}

impl<'a> Run<'a> {
    /// Calls `f` with each input in turn.
    fn new(
        name: &'static str,
        inputs: &'a [Vec<u8>],
        mut f: impl FnMut(&[u8]) -> u64 + 'a,
    ) -> Run<'a> {
        let pass = move || {
            for input in inputs {
                black_box(f(black_box(input)));
            }
        };
        Run { name, calls_a_pass: inputs.len(), pass: Box::new(pass) }
    }

    /// One pass, counted by callgrind, which writes a profile of that name.
    fn count(&mut self, row: &str) {
        (self.pass)();
        callgrind::count(&format!("{row}|{}", self.name), &mut self.pass);
    }

    /// Nanoseconds a call.
    fn time(&mut self, passes: usize) -> f64 {
        let start = Instant::now();
        for _ in 0..passes {
            (self.pass)();
        }
        start.elapsed().as_nanos() as f64 / (passes * self.calls_a_pass) as f64
    }
}

/// The best times of some runs, by name.
struct Best(Vec<(&'static str, f64)>);

impl Best {
    /// Where callgrind counts there are no times. It counts rows of one input alone.
    fn of(row: &str, mut runs: Vec<Run>) -> Best {
        if callgrind::counts() {
            runs.iter_mut().filter(|run| run.calls_a_pass == 1).for_each(|run| run.count(row));
            return Best(Vec::new());
        }
        let passes: Vec<usize> = runs
            .iter_mut()
            .map(|run| {
                let once = run.time(1).min(run.time(1)) * run.calls_a_pass as f64;
                (ROUND_NS / once).ceil() as usize
            })
            .collect();
        let mut best: Vec<_> = runs.iter().map(|run| (run.name, f64::INFINITY)).collect();
        for _ in 0..ROUNDS {
            for (k, run) in runs.iter_mut().enumerate() {
                best[k].1 = best[k].1.min(run.time(passes[k]));
            }
        }
        Best(best)
    }

    fn get(&self, wanted: &str) -> Option<f64> {
        self.0.iter().find(|(name, _)| *name == wanted).map(|(_, ns)| *ns)
    }

    fn ns(&self, wanted: &str) -> String {
        self.get(wanted).map_or("-".to_string(), |ns| format!("{ns:.1}"))
    }

    fn ratio(&self, one: &str, two: &str) -> String {
        match (self.get(one), self.get(two)) {
            (Some(one), Some(two)) => format!("{:.2}", one / two),
            _ => "-".to_string(),
        }
    }
}

#[cfg(libcbor)]
fn libcbor(input: &[u8]) -> u64 {
    extern "C" {
        fn libcbor_load(input: *const u8, length: usize) -> usize;
    }
    // SAFETY: the pointer and the length are those of a slice.
    unsafe { libcbor_load(input.as_ptr(), input.len()) as u64 }
}

/// Heads alone, no rule of a message checked: the nearest thing to a limit.
#[cfg(libcbor)]
fn libcbor_heads(input: &[u8]) -> u64 {
    extern "C" {
        fn libcbor_stream(input: *const u8, length: usize) -> usize;
    }
    // SAFETY: the pointer and the length are those of a slice.
    unsafe { libcbor_stream(input.as_ptr(), input.len()) as u64 }
}

/// Different inputs with that many bytes and items, all accepted.
fn varied(
    count: usize,
    seed: u64,
    bytes: std::ops::RangeInclusive<usize>,
    items: std::ops::RangeInclusive<usize>,
    check: fn(&[u8]) -> Answer,
    make: impl Fn(&mut Random) -> Vec<u8>,
) -> Vec<Vec<u8>> {
    let mut random = Random::new(seed);
    let mut inputs = Vec::new();
    while inputs.len() < count {
        let input = make(&mut random);
        if let Answer::Accepted(n) = check(&input) {
            if bytes.contains(&input.len()) && items.contains(&n) && !inputs.contains(&input) {
                inputs.push(input);
            }
        }
    }
    inputs
}

/// Messages, or lists, that fill the first limits nearly.
fn large_settings(random: &mut Random) -> Settings {
    Settings {
        items: 1_010,
        bytes: 4_096,
        containers: 12,
        nesting: 50,
        string: random.pick(&[6, 7, 8, 9]),
        small_numbers: random.chance(70),
        floats: true,
        few_namespaces: false,
        wide: 0,
    }
}

/// Those that fill the limits of now, four times as large.
fn largest_settings(random: &mut Random) -> Settings {
    Settings { items: 4_070, bytes: LIMITS.bytes, ..large_settings(random) }
}

fn mean(inputs: &[Vec<u8>], f: impl Fn(&[u8]) -> usize) -> usize {
    inputs.iter().map(|input| f(input)).sum::<usize>() / inputs.len()
}

fn items(answer: Answer) -> usize {
    match answer {
        Answer::Accepted(items) => items,
        Answer::Refused { .. } => panic!("refused"),
    }
}

const C: &str = "01 82 14 82 f6 84 1a00010000 22 00 81 83 33 2a 05";

/// A message with one text string of that many bytes, all of them ASCII.
fn note(length: u16) -> Vec<u8> {
    note_of(&ascii(length.into()))
}

fn ascii(length: usize) -> Vec<u8> {
    (0..length).map(|k| b' ' + (k % 95) as u8).collect()
}

/// A report with one text string.
fn note_of(string: &[u8]) -> Vec<u8> {
    let mut note = hex("01 82 15 83 f6 00 83 00 83 f6 20 00");
    generate::put_head(&mut note, 3, string.len() as u64);
    note.extend(string);
    note
}

/// A target with so many namespace references as parameters, in turns of so many numbers.
fn references_of(count: u16, numbers: u16) -> Vec<u8> {
    let mut message = hex("01 82 14 82 f6 84 00 20 00 99");
    message.extend(count.to_be_bytes());
    for k in 0..count {
        message.push(0x81);
        generate::put_head(&mut message, 0, u64::from(k % numbers));
    }
    message
}

/// A target with so many namespace references as parameters, in turns by a published name
/// and by an own one; the lines that they have are spread over 1,000.
fn named_references(count: u16) -> Vec<u8> {
    let mut message = hex("01 82 14 82 f6 84 00 20 00 99");
    message.extend(count.to_be_bytes());
    for k in 0..count {
        let name = format!("{}n{}", if k % 2 == 0 { "" } else { "!" }, u32::from(k) * 7 % 1_000);
        message.extend([0x81, 0x60 + name.len() as u8]);
        message.extend(name.as_bytes());
    }
    message
}

/// An object reference with so many parameters.
fn parameters(count: u16) -> Vec<u8> {
    let mut ari = hex("84 00 20 00 99");
    ari.extend(count.to_be_bytes());
    ari.extend((0..count).map(|k| (k % 24) as u8));
    ari
}

struct Check {
    name: &'static str,
    messages: Vec<Vec<u8>>,
    /// A string within the only message, for the standard library's check.
    string: Option<Vec<u8>>,
}

fn checks(large: &[Vec<u8>], largest: &[Vec<u8>]) -> Vec<Check> {
    let small = varied(2_000, 1, 16..=20, 12..=16, check_message, |random| {
        let settings = Settings {
            items: 20,
            bytes: 40,
            containers: 12,
            nesting: 50,
            string: 2,
            small_numbers: true,
            floats: true,
            few_namespaces: false,
            wide: 0,
        };
        generate::message(random, settings)
    });
    // Every head at full width.
    let wide = varied(500, 3, 4_080..=4_096, 200..=1_024, check_message, |random| {
        let settings = Settings { wide: 100, ..large_settings(random) };
        generate::full_message(random, settings, 4_096)
    });
    let (plain, longest) = (ascii(4_000), ascii(16_000));
    // A letter of two bytes in every hundred.
    let mut letters = plain.clone();
    for pair in letters.chunks_mut(100) {
        pair[50..52].copy_from_slice("ü".as_bytes());
    }
    let of = |string: &Vec<u8>| vec![note_of(string)];

    let check = |name, messages| Check { name, messages, string: None };
    vec![
        check("a  message C, repeated", vec![hex(C)]),
        check("a  2,000 like it", small),
        check("b  4,096 bytes, repeated", large[..1].to_vec()),
        check("b  500 like it", large.to_vec()),
        check("b  16,384 bytes, repeated", largest[..1].to_vec()),
        check("b  100 like it", largest.to_vec()),
        check("b  4,096 bytes, heads of 9", wide[..1].to_vec()),
        check("b  500 like it", wide),
        check("c  strings of 0 to 40 bytes", (0..=40).map(|k| note_of(&ascii(k))).collect()),
        Check { string: Some(letters.clone()), ..check("c  40 letters of 2 bytes", of(&letters)) },
        Check { string: Some(plain.clone()), ..check("c  4,000 bytes of ASCII", of(&plain)) },
        Check { string: Some(longest.clone()), ..check("c  16,000 bytes of ASCII", of(&longest)) },
    ]
}

/// The message check, beside libcbor and the standard library's UTF-8 check too.
fn time_check(Check { name, messages, string }: Check) {
    let linked = archive::has("surfbodkin_check_message");
    let reading = |message: &[u8]| packed(check_message(message));
    for message in &messages {
        assert!(!linked || archive::check_message(message) == reading(message));
        #[cfg(libcbor)]
        assert!(libcbor(message) > 0 && libcbor_heads(message) > 0);
    }
    let string = string.map(|string| vec![string]);
    let mut runs = vec![Run::new("reading", &messages, reading)];
    if linked {
        runs.push(Run::new("archive", &messages, archive::check_message));
    }
    #[cfg(libcbor)]
    runs.extend([
        Run::new("libcbor", &messages, libcbor),
        Run::new("heads", &messages, libcbor_heads),
    ]);
    if let Some(string) = &string {
        let from_utf8 = |string: &[u8]| u64::from(std::str::from_utf8(string).is_ok());
        runs.push(Run::new("from_utf8", string, from_utf8));
    }
    let best = Best::of(name, runs);
    println!(
        "{name:<25}{:>7}{:>7}{:>10}{:>10}{:>10}{:>10}{:>10}   {:>8}{:>9}{:>10}{:>10}",
        mean(&messages, <[u8]>::len),
        mean(&messages, |message| items(check_message(message))),
        best.ns("archive"),
        best.ns("reading"),
        best.ns("libcbor"),
        best.ns("heads"),
        best.ns("from_utf8"),
        best.ratio("archive", "reading"),
        best.ratio("libcbor", "archive"),
        best.ratio("archive", "heads"),
        best.ratio("archive", "from_utf8"),
    );
}

/// A call that both have, as it is called on one input with room for its answer.
struct Call<'a> {
    function: &'static str,
    archive: &'a dyn Fn(&[u8], &mut [u8]) -> u64,
    reading: &'a dyn Fn(&[u8], &mut [u8]) -> u64,
}

/// Any other call, beside the reading. The column `answer` has the entries or
/// bytes that it writes; of a message that is held, the entry.
fn time_call(name: &str, call: &Call, inputs: &[Vec<u8>]) {
    let linked = archive::has(call.function);
    let [mut room, mut other_room] = [(); 2].map(|()| vec![0; LIMITS.text]);
    let mut answers = 0;
    for input in inputs {
        let answer = (call.reading)(input, &mut room);
        let due = if call.function == "surfbodkin_why" { archive::NO } else { 0 };
        assert_eq!(answer >> 56, due, "refused, or held where it is not asked why");
        answers += answer as u32 as usize;
        assert!(!linked || (call.archive)(input, &mut other_room) == answer);
        assert!(!linked || room == other_room);
    }
    let mut runs =
        vec![Run::new("reading", inputs, |input| (call.reading)(input, &mut other_room))];
    if linked {
        runs.push(Run::new("archive", inputs, |input| (call.archive)(input, &mut room)));
    }
    let best = Best::of(name, runs);
    println!(
        "{name:<36}{:>7}{:>8}{:>10}{:>10}   {:>8}",
        mean(inputs, <[u8]>::len),
        answers / inputs.len(),
        best.ns("archive"),
        best.ns("reading"),
        best.ratio("archive", "reading"),
    );
}

/// A stream, and room for the listing at its close.
struct Stream {
    state: Vec<u64>,
    message: Vec<u8>,
    listing: Vec<u8>,
}

impl Stream {
    fn new() -> Stream {
        Stream {
            state: vec![0; archive::STREAM_WORDS],
            message: vec![0; LIMITS.bytes],
            listing: vec![0; LIMITS.text],
        }
    }

    /// Opens it and feeds a message in pieces of that size.
    fn feed(&mut self, message: &[u8], piece: usize) -> u64 {
        let mut answer = archive::stream_open(&mut self.state);
        for fragment in message.chunks(piece) {
            answer |= archive::stream_feed(&mut self.state, &mut self.message, fragment);
        }
        answer
    }

    fn close(&mut self) -> u64 {
        archive::stream_close(&mut self.state, &mut self.message, &mut self.listing)
    }
}

/// Messages fed in pieces: beside the check of the whole, and closed, beside the listing.
fn time_stream(name: &str, messages: &[Vec<u8>], piece: usize) {
    let [mut fed, mut closed] = [(); 2].map(|()| Stream::new());
    let mut room = closed.listing.clone();
    for message in messages {
        assert_eq!(fed.feed(message, piece), 0);
        assert_eq!(fed.close(), archive::list(message, &mut room));
        assert_eq!(fed.listing, room);
    }
    let best = Best::of(
        name,
        vec![
            Run::new("check", messages, archive::check_message),
            Run::new("fed", messages, |message| fed.feed(message, piece)),
            Run::new("list", messages, |message| archive::list(message, &mut room)),
            Run::new("closed", messages, |message| closed.feed(message, piece) | closed.close()),
        ],
    );
    println!(
        "{name:<25}{:>7}{:>7}{piece:>7}{:>10}{:>10}{:>10}{:>10}   {:>9}{:>13}",
        mean(messages, <[u8]>::len),
        mean(messages, |message| items(check_message(message))),
        best.ns("check"),
        best.ns("fed"),
        best.ns("list"),
        best.ns("closed"),
        best.ratio("fed", "check"),
        best.ratio("closed", "list"),
    );
}

/// What each byte costs, fed in pieces: the same for every size if the cost is linear.
fn time_stream_by_size(name: &str, messages: &[Vec<u8>]) {
    let [mut one, mut sixteen] = [(); 2].map(|()| Stream::new());
    for message in messages {
        assert_eq!([one.feed(message, 1), sixteen.feed(message, 16)], [0; 2]);
    }
    let best = Best::of(
        name,
        vec![
            Run::new("check", messages, archive::check_message),
            Run::new("by 1", messages, |message| one.feed(message, 1)),
            Run::new("by 16", messages, |message| sixteen.feed(message, 16)),
        ],
    );
    let bytes = mean(messages, <[u8]>::len);
    let a_byte = |run| best.get(run).map_or(f64::NAN, |ns| ns / bytes as f64);
    println!(
        "{name:<25}{bytes:>7}{:>7}{:>10.2}{:>10.2}{:>10.2}   {:>9}{:>9}",
        mean(messages, |message| items(check_message(message))),
        a_byte("check"),
        a_byte("by 1"),
        a_byte("by 16"),
        best.ratio("by 1", "check"),
        best.ratio("by 16", "check"),
    );
}

fn time_streams(large: &[Vec<u8>], largest: &[Vec<u8>]) {
    println!(
        "{:<25}{:>7}{:>7}{:>7}{:>10}{:>10}{:>10}{:>10}   {:>9}{:>13}",
        "stream",
        "bytes",
        "items",
        "piece",
        "check",
        "fed",
        "list",
        "closed",
        "fed/check",
        "closed/list"
    );
    let notes = [note(4_000)];
    for (name, messages) in [
        ("h  4,096 bytes, repeated", &large[..1]),
        ("h  50 like it", &large[..50]),
        ("h  16,384 bytes, repeated", &largest[..1]),
        ("h  4,000 bytes of ASCII", &notes),
    ] {
        for piece in [1, 16, 4_096] {
            time_stream(name, messages, piece);
        }
    }

    println!(
        "{:<25}{:>7}{:>7}{:>10}{:>10}{:>10}   {:>9}{:>9}",
        "stream, ns a byte", "bytes", "items", "check", "by 1", "by 16", "1/check", "16/check"
    );
    // As many bytes of each size, so that the processor learns them alike.
    for size in [512, 1_024, 2_048, 4_096, 16_384] {
        let share = |items: usize| items * size / 4_096;
        let range = share(900)..=share(1_024);
        let messages = varied(65_536 / size, 5, size..=size, range, check_message, |random| {
            let settings = Settings { items: share(1_010), ..large_settings(random) };
            generate::full_message(random, settings, size)
        });
        time_stream_by_size("i  many items", &messages);
    }
    for size in [512, 1_024, 2_048, 4_096, 16_384] {
        let messages = [note(size - 15)];
        time_stream_by_size("i  one string of ASCII", &messages);
    }
}

/// A file as long as it may be, of the first messages that it has room for and a last one
/// that fills it.
fn full_file(messages: &[Vec<u8>], form: &Form) -> Vec<u8> {
    let mut left = form.bytes - day::TRAILER;
    let mut held = Vec::new();
    for message in messages.iter().cycle() {
        let taken = message.len() + form.offset;
        if left < taken {
            break;
        }
        left -= taken;
        held.push(message.clone());
    }
    // The last one may have to take the place of one more.
    while left < 5 + form.offset {
        left += held.pop().map_or(0, |message| message.len() + form.offset);
    }
    held.push(message_of_length(left - form.offset));
    let file = file_of(&held, form);
    assert_eq!(file.len(), form.bytes);
    file
}

/// The least that a call can do that reads all bytes.
fn sum(file: &[u8]) -> u64 {
    file.iter().map(|byte| u64::from(*byte)).sum()
}

/// A call on a day file, beside the reading and the sum of the bytes. The column `answer`
/// has the messages, the entries found or the bytes written.
fn time_day(
    name: &str,
    functions: &[&str],
    file: Vec<u8>,
    archive: impl Fn(&[u8], &mut [u8]) -> u64,
    reading: impl Fn(&[u8], &mut [u8]) -> u64,
) {
    let linked = functions.iter().all(|function| archive::has(function));
    let [mut room, mut other_room] = [(); 2].map(|()| vec![0; file.len() / 2 * ENTRY]);
    let answer = reading(&file, &mut other_room);
    assert_eq!(answer >> 56, 0, "refused");
    assert!(!linked || archive(&file, &mut room) == answer && room == other_room);
    let files = [file];
    let mut runs = vec![
        Run::new("reading", &files, |file| reading(file, &mut other_room)),
        Run::new("sum", &files, sum),
    ];
    if linked {
        runs.push(Run::new("archive", &files, |file| archive(file, &mut room)));
    }
    let best = Best::of(name, runs);
    let (bytes, answer) = (files[0].len(), answer as u32);
    let rate =
        |run| best.get(run).map_or("-".to_string(), |ns| format!("{:.0}", bytes as f64 * 1e3 / ns));
    println!(
        "{name:<36}{bytes:>8}{answer:>8}{:>12}{:>12}{:>12}{:>9}{:>9}{:>9}   {:>8}",
        best.ns("archive"),
        best.ns("reading"),
        best.ns("sum"),
        rate("archive"),
        rate("reading"),
        rate("sum"),
        best.ratio("archive", "reading"),
    );
}

/// Files of 65,535 bytes and of 1 MiB: the check, and searches by a number and by a name that
/// stands for one, which is looked for too; and one of version 1 rewritten as version 2.
fn time_days(
    large: &[Vec<u8>],
    largest: &[Vec<u8>],
    few: &[Vec<u8>],
    published: &[u8],
    own: &[u8],
) {
    println!(
        "{:<36}{:>8}{:>8}{:>12}{:>12}{:>12}{:>9}{:>9}{:>9}   {:>8}",
        "day file, ns and MB/s",
        "bytes",
        "answer",
        "archive",
        "reading",
        "sum",
        "archive",
        "reading",
        "sum",
        "arc/read"
    );
    let short = [hex(C)];
    let notes = [note(4_000)];
    for (name, messages, form) in [
        ("j  check, many items", large, VERSION_1),
        ("j  check, message C again and again", &short, VERSION_1),
        ("j  check, 4,000 bytes of ASCII each", &notes, VERSION_1),
        ("k  check, many items", large, VERSION_2),
        ("k  check, many items, 16,384 bytes", largest, VERSION_2),
        ("k  check, message C again and again", &short, VERSION_2),
        ("k  check, 4,000 bytes of ASCII each", &notes, VERSION_2),
    ] {
        time_day(
            name,
            &["surfbodkin_day_check"],
            full_file(messages, &form),
            |file, _| archive::day_check(file),
            |file, _| packed_low(day::check(file, &form_of(file))),
        );
    }
    time_day(
        "k  version 1 rewritten, many items",
        &["surfbodkin_day_upgrade"],
        full_file(large, &VERSION_1),
        archive::day_upgrade,
        |file, room| packed_added(day::upgrade(file, room)),
    );
    let namespace = generate::NAMESPACES[0];
    for (name, form) in
        [("j  search by number, no lists", VERSION_1), ("k  search by number, no lists", VERSION_2)]
    {
        time_day(
            name,
            &["surfbodkin_day_search"],
            full_file(few, &form),
            |file, room| archive::day_search(file, b"", b"", namespace as u64, room),
            |file, room| packed_low(day::search(file, b"", b"", namespace, room, &form)),
        );
    }
    time_day(
        "j  search by number, 2,000 lines",
        &["surfbodkin_day_search"],
        full_file(few, &VERSION_1),
        |file, room| archive::day_search(file, published, own, namespace as u64, room),
        |file, room| packed_low(day::search(file, published, own, namespace, room, &VERSION_1)),
    );
    let name = b"!n707";
    time_day(
        "j  search by name, 2,000 lines",
        &["surfbodkin_day_search", "surfbodkin_name_number"],
        full_file(&[named_references(500)], &VERSION_1),
        |file, room| {
            let mut number = 0;
            assert_eq!(archive::name_number(published, own, name, &mut number), 1);
            archive::day_search(file, published, own, number, room)
        },
        |file, room| {
            let number = reading::names::name_number(published, own, name).expect("a line");
            packed_low(day::search(file, published, own, number, room, &VERSION_1))
        },
    );
}

/// A file added to a fresh month, which is read then. The lists have 1,000 lines each, for 200
/// namespaces.
fn time_months(few: &[Vec<u8>], largest_few: &[Vec<u8>]) {
    let line = |k: usize, mark: &str| format!("{mark}n{k}={}\n", k % 200);
    let [published, own] =
        ["", "!"].map(|mark| (0..1_000).map(|k| line(k, mark)).collect::<String>().into_bytes());
    let none = (&b""[..], &b""[..]);
    for (name, messages, form, (published, own)) in [
        ("m  month, message C again and again", &[hex(C)][..], VERSION_2, none),
        ("m  month, many items", few, VERSION_2, none),
        ("m  month, many items, 16,384 bytes", largest_few, VERSION_2, none),
        ("m  month, 256 namespaces", &[references_of(500, 256)], VERSION_2, none),
        ("m  month, by name, 2,000 lines", &[named_references(500)], VERSION_1, (&published, &own)),
    ] {
        time_day(
            name,
            &["surfbodkin_month_add", "surfbodkin_month_read"],
            full_file(messages, &form),
            |file, room| {
                let mut state = [0; MONTH_WORDS];
                match archive::month_add(&mut state, file, published, own) {
                    0 => archive::month_read(&state, room),
                    refused => refused,
                }
            },
            |file, room| {
                let mut month = Month::default();
                match month.add(file, published, own, &form, &BOUNDS) {
                    Ok(()) => packed_low(month.read(room)),
                    refused => packed_plain(refused),
                }
            },
        );
    }
}

fn main() {
    padding::keep();
    let functions = archive::FUNCTIONS.iter().chain(&[(composer::FUNCTION, composer::IS_THERE)]);
    let missing: Vec<&str> = functions.filter(|(_, there)| !there).map(|(name, _)| *name).collect();
    if !missing.is_empty() {
        println!("archive: skipped, not there when this was built: {}", missing.join(", "));
    }
    if !cfg!(libcbor) {
        println!("libcbor: skipped, not installed");
    }
    println!("ns a call, best of {ROUNDS} rounds taken in turns");

    let large = varied(500, 2, 4_096..=4_096, 980..=1_024, check_message, |random| {
        let settings = large_settings(random);
        generate::full_message(random, settings, 4_096)
    });
    let largest = varied(100, 6, 16_384..=16_384, 3_900..=4_096, check_message, |random| {
        let settings = largest_settings(random);
        generate::full_message(random, settings, 16_384)
    });
    println!(
        "{:<25}{:>7}{:>7}{:>10}{:>10}{:>10}{:>10}{:>10}   {:>8}{:>9}{:>10}{:>10}",
        "message check",
        "bytes",
        "items",
        "archive",
        "reading",
        "libcbor",
        "its heads",
        "from_utf8",
        "arc/read",
        "cbor/arc",
        "arc/heads",
        "arc/utf8"
    );
    checks(&large, &largest).into_iter().for_each(time_check);

    println!(
        "{:<36}{:>7}{:>8}{:>10}{:>10}   {:>8}",
        "other calls", "bytes", "answer", "archive", "reading", "arc/read"
    );
    let c = [hex(C)];
    let list = Call {
        function: "surfbodkin_list",
        archive: &archive::list,
        reading: &|message, room| packed_written(reading::list(message, room)),
    };
    time_call("d  listing, message C", &list, &c);
    time_call("d  listing, 4,096 bytes, repeated", &list, &large[..1]);
    time_call("d  listing, 500 like it", &list, &large);
    time_call("d  listing, 16,384 bytes, repeated", &list, &largest[..1]);
    time_call("d  listing, 100 like it", &list, &largest);

    // All numbers are granted by the table's last rows.
    let few = varied(500, 3, 4_096..=4_096, 980..=1_024, check_message, |random| {
        let settings = Settings { few_namespaces: true, ..large_settings(random) };
        generate::full_message(random, settings, 4_096)
    });
    let others = 500 - generate::NAMESPACES.len() as i64;
    let rows = (0..others).map(|k| Row { subscriber: 8, namespace: 1_000 + k });
    let own = generate::NAMESPACES.map(|namespace| Row { subscriber: 7, namespace });
    let table = reading::table_bytes(&rows.chain(own).collect::<Vec<_>>());
    let release = Call {
        function: "surfbodkin_release",
        archive: &|message, _| archive::release(message, &table, b"", b"", 7, &mut 0),
        reading: &|message, _| packed_release(reading::release(message, &table, 7)),
    };
    time_call("e  release, 500 rows, message C", &release, &c);
    time_call("e  release, 500 rows, 4,096 bytes", &release, &few[..1]);
    time_call("e  release, 500 rows, 500 like it", &release, &few);
    let largest_few = varied(100, 7, 16_384..=16_384, 3_900..=4_096, check_message, |random| {
        let settings = Settings { few_namespaces: true, ..largest_settings(random) };
        generate::full_message(random, settings, 16_384)
    });
    time_call("e  release, 500 rows, 16,384 bytes", &release, &largest_few[..1]);
    time_call("e  release, 500 rows, 100 like it", &release, &largest_few);

    // C is held at its parameter, 500 references at the last: all but that one's namespace are granted.
    let granted: Vec<Row> =
        (0..499).chain([65_536]).map(|k| Row { subscriber: 7, namespace: k }).collect();
    let granted = reading::table_bytes(&granted);
    let why = Call {
        function: "surfbodkin_why",
        archive: &|message, room| archive::why(message, &granted, b"", b"", 7, room),
        reading: &|message, room| {
            let answer = reading::why::why(message, &granted, b"", b"", 7, &LIMITS);
            packed_why(answer.and_then(|why| reading::why::write(why, room)))
        },
    };
    time_call("e  why held, message C", &why, &c);
    time_call("e  why held, the last of 500 references", &why, &[references_of(500, 500)]);

    // References of one namespace, which the table's last row grants, and of 100 in turns.
    let rows = (0..400).map(|k| Row { subscriber: 8, namespace: k });
    let own = (0..100).rev().map(|namespace| Row { subscriber: 7, namespace });
    let last = reading::table_bytes(&rows.chain(own).collect::<Vec<_>>());
    let numbered = Call {
        function: "surfbodkin_release",
        archive: &|message, _| archive::release(message, &last, b"", b"", 7, &mut 0),
        reading: &|message, _| packed_release(reading::release(message, &last, 7)),
    };
    time_call("e  500 rows, 500 references of one", &numbered, &[references_of(500, 1)]);
    time_call("e  500 rows, 500 references of 100", &numbered, &[references_of(500, 100)]);

    // References in namespaces by name, against lists of 1,000 lines; all are granted.
    let list = |k: usize, mark: &str| format!("{mark}n{k}={}\n", k % 500);
    let [published, own] =
        ["", "!"].map(|mark| (0..1_000).map(|k| list(k, mark)).collect::<String>().into_bytes());
    let all: Vec<Row> = (0..500).map(|k| Row { subscriber: 7, namespace: k }).collect();
    let granting = reading::table_bytes(&all);
    let named = Call {
        function: "surfbodkin_release",
        archive: &|message, _| archive::release(message, &granting, &published, &own, 7, &mut 0),
        reading: &|message, _| {
            packed_release(reading::names::release(
                message, &granting, &published, &own, 7, &LIMITS,
            ))
        },
    };
    time_call("e  no references, 2,000 lines of names", &named, &[vec![1]]);
    time_call("e  500 named references, 2,000 lines", &named, &[named_references(500)]);

    let target = [c[0][5..].to_vec()];
    let aris = varied(500, 4, 4_096..=4_096, 980..=1_024, check_single, |random| {
        let settings = Settings { floats: false, ..large_settings(random) };
        generate::full_list(random, settings, 4_096)
    });
    let text = |ari: &Vec<u8>| reading::text_of(ari, &LIMITS).unwrap().0.into_bytes();
    let write = Call {
        function: "surfbodkin_write_text",
        archive: &archive::write_text,
        reading: &|ari, room| packed_written(reading::write_text(ari, room)),
    };
    time_call("f  text of C's target", &write, &target);
    time_call("f  text of 4,096 bytes, repeated", &write, &aris[..1]);
    time_call("f  text of 500 like it", &write, &aris);
    let largest_aris = varied(100, 8, 16_384..=16_384, 3_900..=4_096, check_single, |random| {
        let settings = Settings { floats: false, ..largest_settings(random) };
        generate::full_list(random, settings, 16_384)
    });
    time_call("f  text of 16,384 bytes, repeated", &write, &largest_aris[..1]);
    time_call("f  text of 100 like it", &write, &largest_aris);
    let read = Call {
        function: "surfbodkin_read_text",
        archive: &archive::read_text,
        reading: &|text, room| packed_written(reading::read_text(text, room)),
    };
    let texts: Vec<Vec<u8>> = aris.iter().map(text).collect();
    time_call("g  C's target from its text", &read, &target.each_ref().map(text));
    time_call("g  4,096 bytes from text, repeated", &read, &texts[..1]);
    time_call("g  500 like it", &read, &texts);
    let texts: Vec<Vec<u8>> = largest_aris.iter().map(text).collect();
    time_call("g  16,384 bytes from text, repeated", &read, &texts[..1]);
    time_call("g  100 like it", &read, &texts);
    // Beside itself, so that every item is compared.
    let same = Call {
        function: "surfbodkin_same",
        archive: &|ari, _| archive::same(ari, ari),
        reading: &|ari, _| packed_low(reading::same(ari, ari, &LIMITS).map(usize::from)),
    };
    time_call("g  C's target, the same as itself", &same, &target);
    time_call("g  4,096 bytes, repeated", &same, &aris[..1]);
    time_call("g  500 like it", &same, &aris);
    time_call("g  16,384 bytes, repeated", &same, &largest_aris[..1]);

    // Beside itself, as above.
    let compare = Call {
        function: "surfbodkin_compare",
        archive: &|message, room| archive::compare(message, message, room),
        reading: &|message, room| {
            let list = reading::compare::compare(message, message, &LIMITS);
            packed_compared(list.and_then(|list| reading::compare::write(&list, room)))
        },
    };
    time_call("l  C compared with itself", &compare, &c);
    time_call("l  4,096 bytes, repeated", &compare, &large[..1]);
    time_call("l  500 like it", &compare, &large);
    time_call("l  16,384 bytes, repeated", &compare, &largest[..1]);

    // The first target of each.
    let strike = Call {
        function: "surfbodkin_strike",
        archive: &|message, room| archive::strike(message, 0, room),
        reading: &|message, room| {
            let struck = reading::strike::strike(message, 0, &LIMITS);
            packed_written(struck.and_then(|struck| reading::strike::write(&struck, room)))
        },
    };
    time_call("m  C's target struck", &strike, &c);
    time_call("m  one of 4,096 bytes, repeated", &strike, &large[..1]);
    time_call("m  one of 500 like it", &strike, &large);
    time_call("m  one of 16,384 bytes, repeated", &strike, &largest[..1]);

    // From the texts of targets, with the nonce 1234.
    let order = Call {
        function: composer::FUNCTION,
        archive: &|texts, room| composer::compose(1, 1_234, b"", texts, room),
        reading: &|texts, room| packed_written(compose(Nonce::Number(1_234), texts, room, &LIMITS)),
    };
    let line = |ari: &[u8]| reading::text_of(ari, &LIMITS).unwrap().0 + "\n";
    let orders = [line(&target[0]), line(&target[0]).repeat(300), line(&parameters(4_000))];
    let [one, many, large_one] = orders.map(|texts| [texts.into_bytes()]);
    time_call("g  an order of C's target", &order, &one);
    time_call("g  an order of 300 targets", &order, &many);
    time_call("g  an order of 4,000 parameters", &order, &large_one);

    time_days(&large, &largest, &few, &published, &own);
    time_months(&few, &largest_few);

    if archive::has_stream() {
        time_streams(&large, &largest);
    }
}
