//! `programs COMMAND PROGRAM [--seed S]`: gives the program of `gate list`, `items`, `stream`,
//! `text`, `table`, `names`, `release`, `why`, `same`, `compare`, `strike` or `month`, or the
//! composer, fixed inputs and made ones, and compares what it writes with the reading.

use std::fmt::Write as _;
use std::io::Write as _;
use std::process::{Command, ExitCode, Stdio};

use reading::compare::compare;
use reading::composer::{composed, Nonce};
use reading::day::form_of;
use reading::generate::names::{self as made, Lists};
use reading::generate::orders::{self, Order};
use reading::generate::{self, months, nests, pairs, strikes, tables, texts, Random};
use reading::month::{Month, BOUNDS};
use reading::names::{self, check_names, find_line, lines};
use reading::printed::{entry_line, item_lines, listing_lines, month_lines};
use reading::printed::{position_lines, why_lines};
use reading::strike::{strike, Struck};
use reading::vectors::{self, dump, hex, to_hex, Call, Line};
use reading::why::why;
use reading::{
    check_table, closing, is_namespace_name, items_message, items_single, listing, read_table,
    read_text, rows, same, table_bytes, text_of, Listing, NoTable, Record, Refusal, Release, Row,
    Test, LIMITS, TABLE_ROWS, TABLE_TEXT,
};

/// What a program writes to standard output and to standard error.
#[derive(PartialEq, Eq)]
struct Printed {
    out: Vec<u8>,
    error: Vec<u8>,
}

impl Printed {
    fn out(out: impl Into<Vec<u8>>) -> Printed {
        Printed { out: out.into(), error: Vec::new() }
    }

    fn error(error: impl Into<Vec<u8>>) -> Printed {
        Printed { out: Vec::new(), error: error.into() }
    }
}

impl std::fmt::Display for Printed {
    fn fmt(&self, f: &mut std::fmt::Formatter<'_>) -> std::fmt::Result {
        let [out, error] = [&self.out, &self.error].map(|bytes| String::from_utf8_lossy(bytes));
        write!(f, "{out:?}, on standard error {error:?}")
    }
}

struct Program(String);

impl Program {
    fn run(&self, arguments: &[&str], input: &[u8]) -> Result<Printed, String> {
        let mut child = Command::new(&self.0)
            .args(arguments)
            .stdin(Stdio::piped())
            .stdout(Stdio::piped())
            .stderr(Stdio::piped())
            .spawn()
            .map_err(|error| format!("{}: {error}", self.0))?;
        let mut pipe = child.stdin.take().expect("a pipe");
        std::thread::scope(|scope| {
            // An input that is too long may not be read to its end.
            scope.spawn(move || drop(pipe.write_all(input)));
            child.wait_with_output()
        })
        .map(|output| Printed { out: output.stdout, error: output.stderr })
        .map_err(|error| error.to_string())
    }

    fn compare(&self, arguments: &[&str], input: &[u8], due: Printed) -> Result<(), String> {
        let got = self.run(arguments, input)?;
        match got == due {
            true => Ok(()),
            false => Err(format!(
                "{arguments:?}, input:{}\nthe reading: {due}\nthe program: {got}",
                dump(input)
            )),
        }
    }
}

fn fixed(call: Call) -> Vec<Vec<u8>> {
    vectors::lines()
        .into_iter()
        .filter_map(|line| match line {
            Line::Input { call: c, input, .. } if c == call => Some(input),
            _ => None,
        })
        .collect()
}

fn line(refusal: Refusal) -> Printed {
    Printed::out(format!("{refusal}\n"))
}

/// Gives a program messages that it has to list.
fn compare_listings(
    program: &Program,
    messages: &[Vec<u8>],
    listing: impl Fn(&[u8]) -> Result<Listing, Refusal>,
) -> Result<String, String> {
    let (mut accepted, mut references) = (0, 0);
    for message in messages {
        let listing = listing(message);
        accepted += usize::from(listing.is_ok());
        references += listing.as_ref().map_or(0, |listing| listing.entries.len());
        program.compare(&[], message, Printed::out(listing_lines(message, &listing)))?;
    }
    Ok(format!("{accepted} accepted with {references} references"))
}

fn made_messages(random: &mut Random, count: usize) -> Vec<Vec<u8>> {
    let mut messages = Vec::new();
    for _ in 0..count {
        let settings = generate::settings(random);
        messages.push(generate::message(random, settings));
    }
    messages
}

fn list(program: &Program, random: &mut Random) -> Result<String, String> {
    let (fixed, made) = (fixed(Call::Message), made_messages(random, 1_000));
    let words = compare_listings(program, &[&fixed[..], &made].concat(), listing)?;
    Ok(format!("{} fixed and {} made messages, {words}", fixed.len(), made.len()))
}

/// Some of the made messages are damaged, some about as long as the limit or longer.
fn stream(program: &Program, random: &mut Random) -> Result<String, String> {
    let (fixed, mut made) = (fixed(Call::Message), made_messages(random, 800));
    for _ in 0..200 {
        let settings = generate::settings(random);
        let bytes = LIMITS.bytes - 3 + random.below(12);
        made.push(generate::full_message(random, settings, bytes));
    }
    for message in &mut made {
        if random.chance(30) {
            generate::damage(random, message, &[], &fixed[0]);
        }
    }
    let within = |message: &[u8]| closing(message, &LIMITS);
    let words = compare_listings(program, &[&fixed[..], &made].concat(), within)?;
    Ok(format!("{} fixed and {} made messages, {words}", fixed.len(), made.len()))
}

/// Messages and single ARIs, some of the made ones damaged.
fn items(program: &Program, random: &mut Random) -> Result<String, String> {
    let mut inputs: Vec<(bool, Vec<u8>)> = Vec::new();
    for (single, calls) in
        [(false, [Call::Message, Call::ItemsMessage]), (true, [Call::Single, Call::ItemsSingle])]
    {
        inputs.extend(calls.into_iter().flat_map(fixed).map(|input| (single, input)));
    }
    let fixed = inputs.len();
    for _ in 0..1_000 {
        let (settings, single) = (generate::settings(random), random.chance(50));
        let mut input = match (single, random.chance(10)) {
            (true, true) => generate::nested_single(random, LIMITS.containers),
            (true, false) => generate::single(random, settings),
            (false, true) => generate::nested_message(random, LIMITS.containers),
            (false, false) => generate::message(random, settings),
        };
        if random.chance(20) {
            generate::damage(random, &mut input, &[], &[0x82, 0x14, 0x81, 0xf6]);
        }
        inputs.push((single, input));
    }
    let (mut accepted, mut belonging) = ([0; 2], 0);
    for (single, input) in &inputs {
        let records = if *single { items_single(input) } else { items_message(input) };
        accepted[usize::from(*single)] += usize::from(records.is_ok());
        let has_target = |record: &&Record| record.target.is_some();
        belonging += records.iter().flatten().filter(has_target).count();
        let arguments: &[&str] = if *single { &["single"] } else { &[] };
        program.compare(arguments, input, Printed::out(item_lines(&records)))?;
    }
    for arguments in [&["message"][..], &["Single"], &[""], &["single", "single"], &["singles"]] {
        let due = Printed::error("usage: gate items [single]\n");
        program.compare(arguments, b"\x01", due)?;
    }
    let made = inputs.len() - fixed;
    let [messages, aris] = accepted;
    Ok(format!(
        "{fixed} fixed and {made} made inputs, accepted {messages} messages and {aris} ARIs, \
         {belonging} items of targets"
    ))
}

/// The text or the binary form and nothing behind it, or a refusal's line.
fn text(program: &Program, random: &mut Random) -> Result<String, String> {
    let mut aris = fixed(Call::Write);
    let mut strings = fixed(Call::Read);
    // Those too that are longer than a line of the fixed inputs.
    let pairs = vectors::texts::long_pairs().into_iter().map(|(_, text)| text);
    let others = vectors::texts::long_not_text().into_iter().map(|(text, _)| text);
    strings.extend(pairs.chain(others).map(String::into_bytes));
    let fixed = aris.len() + strings.len();
    for _ in 0..500 {
        let settings = generate::settings(random);
        let floats = random.chance(20);
        aris.push(generate::single(random, generate::Settings { floats, ..settings }));
        let mut string = texts::text(random);
        if random.chance(50) {
            let other = texts::text(random);
            texts::damage(random, &mut string, &other);
        }
        strings.push(string);
    }
    let made = aris.len() + strings.len() - fixed;
    let (mut written, mut read) = (0, 0);
    for ari in &aris {
        let due = match text_of(ari, &LIMITS) {
            Err(refusal) => line(refusal),
            Ok((text, _)) => {
                written += 1;
                Printed::out(text)
            }
        };
        program.compare(&[], ari, due)?;
    }
    for string in &strings {
        let mut room = [0; LIMITS.bytes];
        let due = match read_text(string, &mut room) {
            Err(refusal) => line(refusal),
            Ok(ari) => {
                read += 1;
                Printed::out(&room[..ari.size])
            }
        };
        program.compare(&["read"], string, due)?;
    }
    for arguments in [&["write"][..], &["Read"], &[""], &["read", "read"], &["readreadread"]] {
        let due = Printed::error("usage: gate text [read]\n");
        program.compare(arguments, b"", due)?;
    }
    Ok(format!("{fixed} fixed and {made} made inputs, {written} written and {read} read"))
}

/// What a program says of a text that is no table.
fn no_table(name: &str, why: NoTable) -> Printed {
    Printed::error(match why {
        NoTable::TooLong => format!("{name}: more than {TABLE_TEXT} bytes\n"),
        NoTable::NoRow { line } => {
            format!("{name}: line {line}: expected SUBSCRIBER NAMESPACE in decimal\n")
        }
        NoTable::TooManyRows { line } => {
            format!("{name}: line {line}: more than {TABLE_ROWS} rows\n")
        }
    })
}

/// The text of a table: with comments, blanks and blank lines, and now and then with
/// a line that is no row.
fn table_text(random: &mut Random, table: &[Row], faults: bool) -> Vec<u8> {
    let blank = |random: &mut Random| random.pick(&["", "", "", " ", "\t", " \t "]);
    let mut text = String::new();
    for row in table {
        if random.chance(10) {
            text += random.pick(&["\n", " \n", "# 1 2\n", "\t# row\n", "#\n"]);
        }
        if faults && random.chance(2) {
            text += random
                .pick(&["7\n", "7 08\n", "7 1 #\r\n", "7 1\r\n", "-1 1\n", "7 -0\n", "7 1 1\n"]);
        }
        let [before, between, after] = [0; 3].map(|_| blank(random));
        let _ = write!(text, "{before}{} {between}{}{after}", row.subscriber, row.namespace);
        text += random.pick(&["\n", "\n", "\n", "\n", "# note\n", "#\n"]);
    }
    if random.chance(20) {
        text.truncate(text.trim_end_matches('\n').len());
    }
    text.into_bytes()
}

/// "refused 18 ROW", and the row with its first partner.
fn table_lines(table: &[Row]) -> String {
    let Err(refusal) = check_table(table) else { return format!("passes {}\n", table.len()) };
    let row = table[refusal.place];
    let is_partner =
        |other: &Row| other.namespace == row.namespace && other.subscriber != row.subscriber;
    let other = table.iter().position(is_partner).expect("a partner");
    format!(
        "{refusal}\nrow {}: subscriber {} holds private namespace {} of row {other}: subscriber {}\n",
        refusal.place, row.subscriber, row.namespace, table[other].subscriber
    )
}

fn table(program: &Program, random: &mut Random) -> Result<String, String> {
    let mut inputs: Vec<Vec<u8>> = ["", "\n", "# 1 2", "7 -20\n8 -20", "7 1 1\n", "7 -20\n\n x\n"]
        .map(|text| text.as_bytes().to_vec())
        .to_vec();
    inputs.push("1 2\n".repeat(TABLE_ROWS).into_bytes());
    inputs.push("1 2\n".repeat(TABLE_ROWS + 1).into_bytes());
    inputs.push(vec![b'#'; TABLE_TEXT]);
    inputs.push(vec![b'#'; TABLE_TEXT + 1]);
    let fixed = inputs.len();
    for _ in 0..500 {
        let faults = random.chance(30);
        let mut bytes = tables::table(random);
        bytes.truncate(bytes.len() / 16 * 16);
        inputs.push(table_text(random, &rows(&bytes).expect("whole rows"), faults));
    }
    let (mut passed, mut refused) = (0, 0);
    for input in &inputs {
        let (check, pack) = match read_table(input) {
            Err(why) => (no_table("table", why), no_table("table", why)),
            Ok(table) => {
                *(if check_table(&table).is_ok() { &mut passed } else { &mut refused }) += 1;
                (Printed::out(table_lines(&table)), Printed::out(table_bytes(&table)))
            }
        };
        program.compare(&[], input, check)?;
        program.compare(&["pack"], input, pack)?;
    }
    program.compare(&["check"], b"", Printed::error("usage: gate table [pack]\n"))?;
    let made = inputs.len() - fixed;
    Ok(format!("{fixed} fixed and {made} made tables, {passed} passed and {refused} refused"))
}

/// Files of a folder of their own, which goes away with this.
struct Files(std::path::PathBuf);

impl Files {
    fn new() -> Result<Files, String> {
        let folder = std::env::temp_dir().join(format!("programs-{}", std::process::id()));
        std::fs::create_dir_all(&folder).map_err(|error| error.to_string())?;
        Ok(Files(folder))
    }

    /// The file's path.
    fn put(&self, name: &str, content: &[u8]) -> Result<String, String> {
        std::fs::write(self.0.join(name), content).map_err(|error| error.to_string())?;
        self.path(name)
    }

    fn path(&self, name: &str) -> Result<String, String> {
        Ok(self.0.join(name).to_str().ok_or("no path")?.to_string())
    }
}

impl Drop for Files {
    fn drop(&mut self) {
        let _ = std::fs::remove_dir_all(&self.0);
    }
}

/// A list may have as many bytes as a table's text.
const LIST: usize = TABLE_TEXT;

/// Lists as the third and fourth argument of a program, or as its first and second; an
/// empty one may be left out, if no other follows.
fn list_arguments(random: &mut Random, lists: &Lists, files: [String; 2]) -> Vec<String> {
    let left_out = random.chance(50);
    let count = match (lists.0.is_empty(), lists.1.is_empty()) {
        (true, true) if left_out => 0,
        (_, true) if left_out => 1,
        _ => 2,
    };
    files.into_iter().take(count).collect()
}

fn strings(words: &[String]) -> Vec<&str> {
    words.iter().map(String::as_str).collect()
}

/// What is wrong with a line, in the program's words.
fn fault(line: &[u8]) -> &'static str {
    let Some(text) = line.strip_suffix(b"\n") else { return "no line feed behind it" };
    match text.iter().position(|byte| *byte == b'=') {
        None => "no \"=\" in it",
        Some(at) if !is_namespace_name(&text[..at]) => "no namespace name before the \"=\"",
        _ => "no plain decimal number from -2^63 to 2^63 - 1 behind the \"=\"",
    }
}

/// "passes" with the number of lines, or the refusal with the file, the line and its fault.
fn names_lines((published, own): &Lists, files: &[String]) -> String {
    let Err(refusal) = check_names(published, own) else {
        return format!("passes {}\n", lines(published).count() + lines(own).count());
    };
    let (list, place, file) = match refusal.place < published.len() {
        true => (published, refusal.place, &files[0]),
        false => (own, refusal.place - published.len(), &files[1]),
    };
    let (number, (_, line)) =
        lines(list).enumerate().find(|(_, (first, _))| *first == place).expect("a line's start");
    format!("{refusal}\n{file}: line {}: {}\n", number + 1, fault(line))
}

fn compare_names(program: &Program, random: &mut Random) -> Result<String, String> {
    let files = Files::new()?;
    let text = |words: &str| words.as_bytes().to_vec();
    let mut cases: Vec<Lists> = [("", ""), ("a=1\n", "a=1"), ("\n", ""), ("a=1\n=2\n", "")]
        .map(|(published, own)| (text(published), text(own)))
        .to_vec();
    // As long as a list may be, and one byte longer.
    let full = "a=1234567\nb=12345\n".repeat(LIST / 18) + "a=1234567\n";
    assert_eq!(full.len(), LIST);
    cases.push((text(&full), text(&full)));
    let fixed = cases.len();
    cases.extend((0..600).map(|_| made::lists(random)));
    let (mut passed, mut refused, mut found) = (0, 0, 0);
    for lists in &cases {
        let paths = [files.put("published", &lists.0)?, files.put("own", &lists.1)?];
        let mut given = list_arguments(random, lists, paths.clone());
        if given.is_empty() {
            given.push(paths[0].clone());
        }
        let due = names_lines(lists, &given);
        *(if due.starts_with("passes") { &mut passed } else { &mut refused }) += 1;
        program.compare(&strings(&given), b"", Printed::out(due))?;
        let name = made::sought(random, lists);
        // No argument holds a zero byte.
        let Ok(name) = String::from_utf8(name) else { continue };
        if name.contains('\0') {
            continue;
        }
        let mut due = find_line(&lists.0, &lists.1, name.as_bytes()).to_vec();
        if !due.is_empty() {
            found += 1;
            due.push(b'\n');
        }
        program.compare(&[&paths[0], &paths[1], &name], b"", Printed::out(due))?;
    }
    let long = files.put("long", &[text(&full), text("\n")].concat())?;
    let error = format!("{long}: more than {LIST} bytes\n");
    program.compare(&[&long], b"", Printed::error(error.clone()))?;
    program.compare(&["/dev/null", &long], b"", Printed::error(error))?;
    let usage = "usage: gate names PUBLISHED [OWN [NAME]]\n";
    for arguments in [&[][..], &["a", "b", "c", "d"]] {
        program.compare(arguments, b"", Printed::error(usage))?;
    }
    let missing = files.path("missing")?;
    let error = format!("{missing}: No such file or directory\n");
    program.compare(&[&missing], b"", Printed::error(error.clone()))?;
    program.compare(&["/dev/null", &missing], b"", Printed::error(error))?;
    program.compare(&["/"], b"", Printed::error("/: Is a directory\n"))?;
    let made = cases.len() - fixed;
    Ok(format!(
        "{fixed} fixed and {made} made pairs of lists: {passed} passed, {refused} refused, {found} \
         lines found"
    ))
}

/// "yes", "no" with the entry's number and line, each with the rows compared, or the
/// refusal.
fn release_lines(message: &[u8], table: &[Row], lists: &Lists, subscriber: u64) -> Printed {
    let (published, own) = lists;
    let table = table_bytes(table);
    match names::counted_release(message, &table, published, own, subscriber, &LIMITS) {
        Err(refusal) => line(refusal),
        Ok((Release::Yes, compared)) => Printed::out(format!("yes\ncompared {compared}\n")),
        Ok((Release::No(k), compared)) => {
            let entries = listing(message).expect("released or held").entries;
            let entry = entry_line(message, &entries[k]);
            Printed::out(format!("no {k} {entry}compared {compared}\n"))
        }
    }
}

/// What a program has to print of a message, a table, lists and a subscriber.
type Judge = fn(&[u8], &[Row], &Lists, u64) -> Printed;

/// Gives `gate release` or `gate why` messages with tables and lists; counts the answers whose
/// first line has each of the words, one of its own words beginning there.
fn compare_judged<const N: usize>(
    program: &Program,
    random: &mut Random,
    command: &str,
    judge: Judge,
    words: [&str; N],
) -> Result<(String, [usize; N]), String> {
    let files = Files::new()?;
    let mut messages = fixed(Call::Message);
    let fixed = messages.len();
    for _ in 0..1_000 {
        let settings = generate::settings(random);
        let few_namespaces = random.chance(60);
        messages.push(generate::message(random, generate::Settings { few_namespaces, ..settings }));
    }
    let mut cases = Vec::new();
    for mut message in messages {
        let mut lists = Lists::default();
        if random.chance(60) {
            let (published, own) = made::lists(random);
            let known = [made::names_of(&published), made::names_of(&own)].concat();
            made::rename(random, &mut message, &known, 60);
            lists = made::lists_for(random, &message);
        }
        let (table, subscriber) = made::table_for(random, &message, &lists);
        cases.push(nests::Nest { message, lists, table, subscriber });
    }
    for _ in 0..600 {
        let containers = LIMITS.containers - random.pick(&[0, 0, 0, 1, 2, 5, 8]);
        cases.push(nests::nest(random, containers));
    }
    let mut answers = [0; N];
    let made = cases.len() - fixed;
    for nests::Nest { message, lists, mut table, subscriber } in cases {
        table.truncate(table.len() / 16 * 16);
        let faults = random.chance(5);
        let text = table_text(random, &rows(&table).expect("whole rows"), faults);
        let table = files.put("table", &text)?;
        let due = match read_table(&text) {
            Err(why) => no_table(&table, why),
            Ok(rows) => judge(&message, &rows, &lists, subscriber),
        };
        let first_line = due.out.split(|byte| *byte == b'\n').next().unwrap_or_default();
        let first_line = String::from_utf8_lossy(first_line);
        for (k, words) in words.into_iter().enumerate() {
            answers[k] += usize::from(format!(" {first_line}").contains(&format!(" {words}")));
        }
        let paths = [files.put("published", &lists.0)?, files.put("own", &lists.1)?];
        let mut given = vec![table, subscriber.to_string()];
        given.extend(list_arguments(random, &lists, paths));
        program.compare(&strings(&given), &message, due)?;
    }
    let name: &str = &files.put("table", b"1 1\n")?;
    for subscriber in ["", "x", "-1", "+1", "01", "18446744073709551616", "1 "] {
        let error = "SUBSCRIBER is no number from 0 to 18446744073709551615\n";
        program.compare(&[name, subscriber], b"\x01", Printed::error(error))?;
    }
    for arguments in [&[][..], &[name], &[name, "1", name, name, name]] {
        let error = format!("usage: gate {command} TABLE SUBSCRIBER [PUBLISHED [OWN]]\n");
        program.compare(arguments, b"\x01", Printed::error(error))?;
    }
    let missing: &str = &files.path("missing")?;
    let error = format!("{missing}: No such file or directory\n");
    for arguments in [&[missing, "1"][..], &[name, "1", missing], &[name, "1", name, missing]] {
        program.compare(arguments, b"\x01", Printed::error(error.clone()))?;
    }
    program.compare(&["/", "1"], b"\x01", Printed::error("/: Is a directory\n"))?;
    Ok((format!("{fixed} fixed and {made} made messages"), answers))
}

fn compare_released(program: &Program, random: &mut Random) -> Result<String, String> {
    let words = ["yes", "no", "refused", "refused 19"];
    let (messages, [yes, no, refused, names]) =
        compare_judged(program, random, "release", release_lines, words)?;
    Ok(format!("{messages}: {yes} yes, {no} no, {refused} refused, {names} of them for a list"))
}

fn judged_why(message: &[u8], table: &[Row], lists: &Lists, subscriber: u64) -> Printed {
    let (published, own) = lists;
    let answer = why(message, &table_bytes(table), published, own, subscriber, &LIMITS);
    Printed::out(why_lines(message, published, own, subscriber, &answer))
}

fn compare_why(program: &Program, random: &mut Random) -> Result<String, String> {
    let words = [
        "released",
        "refused",
        "is not granted",
        "is not in the published list",
        "is not in the own list",
        "relative, without",
        "bytes ",
    ];
    let (messages, [released, refused, granted, published, own, relative, bytes]) =
        compare_judged(program, random, "why", judged_why, words)?;
    Ok(format!(
        "{messages}: {released} released, {refused} refused; held {granted} not granted, \
         {published} and {own} without a line, {relative} relative; {bytes} without a text"
    ))
}

/// Pairs by hand: the same in other letters and heads, different in the letters of a string, a
/// label and a key, and in a number, refused for the first, for the second and for both.
const PAIRS: [(&str, &str); 10] = [
    ("83 64 42756f79 64 4354524c 6178", "9803 7804 62756f79 64 6374726c 6158"),
    ("82 14 82 f6 83 6161 20 6162", "82 14 82 f6 83 6141 20 6142"),
    ("82 0a 6161", "82 0a 6141"),
    ("84 f6 20 00 81 82 0e 6161", "84 f6 20 00 81 82 0e 6141"),
    ("84 f6 20 00 a1 6161 00", "84 f6 20 00 a1 6141 00"),
    ("81 6161", "81 622161"),
    ("01", "21"),
    ("82 05 f6", "82 05 00"),
    ("82 05 00", "82 05 f6"),
    ("81 6161 00", "81 6140"),
];

/// What a program says of two files that are no two, or cannot be read.
fn compare_file_errors(
    program: &Program,
    files: &Files,
    command: &str,
    good: &str,
    refused: &str,
) -> Result<(), String> {
    let usage = format!("usage: gate {command} FILE FILE\n");
    for arguments in [&[][..], &[good], &[good, good, good], &[good, good, ""]] {
        program.compare(arguments, b"", Printed::error(usage.clone()))?;
    }
    // Nothing is answered, not even for a first file that is refused.
    let missing: &str = &files.path("missing")?;
    let error = format!("{missing}: No such file or directory\n");
    for arguments in [[missing, good], [good, missing], [refused, missing], [missing, "/"]] {
        program.compare(&arguments, b"", Printed::error(error.clone()))?;
    }
    for arguments in [["/", good], [good, "/"], ["/", missing]] {
        program.compare(&arguments, b"", Printed::error("/: Is a directory\n"))?;
    }
    Ok(())
}

/// "same" or "different"; or the refusal, and which file it is of on standard error.
fn same_lines(first: &[u8], second: &[u8], files: &[String; 2]) -> Printed {
    match same(first, second, &LIMITS) {
        Ok(true) => Printed::out("same\n"),
        Ok(false) => Printed::out("different\n"),
        Err(refusal) => {
            let file = &files[usize::from(items_single(first).is_ok())];
            let error = format!("{file}\n").into_bytes();
            Printed { error, ..line(refusal) }
        }
    }
}

fn compare_same(program: &Program, random: &mut Random) -> Result<String, String> {
    let files = Files::new()?;
    let mut pairs = PAIRS.map(|(first, second)| (hex(first), hex(second))).to_vec();
    // Files that are longer than what is read of them.
    pairs.push((vec![0; 4 * LIMITS.bytes], hex("00")));
    pairs.push((hex("00"), vec![0; LIMITS.bytes + 2]));
    // An accepted input beside itself in other letters and heads; each beside the last one
    // that was accepted before, now as the first and now as the second.
    let mut before = hex("00");
    for input in fixed(Call::Single) {
        let other = std::mem::replace(&mut before, input.clone());
        match items_single(&input) {
            Ok(_) => pairs.push((input.clone(), generate::rewritten(random, &input, 30, 30))),
            Err(_) => before = other.clone(),
        }
        pairs.push(if random.chance(50) { (input, other) } else { (other, input) });
    }
    let fixed = pairs.len();
    for _ in 0..1_000 {
        let settings = generate::settings(random);
        let first = generate::single(random, settings);
        let records = items_single(&first).unwrap_or_default();
        let mut second = match random.below(6) {
            0 => generate::single(random, settings),
            1 | 2 => generate::one_letter(random, &first, &records),
            _ => generate::rewritten(random, &first, 5, 10),
        };
        if random.chance(20) {
            generate::damage(random, &mut second, &[], &first);
        }
        pairs.push(if random.chance(50) { (first, second) } else { (second, first) });
    }
    let mut answers = [0; 4];
    for (first, second) in &pairs {
        let paths = [files.put("first", first)?, files.put("second", second)?];
        let due = same_lines(first, second, &paths);
        answers[match &due.out[..] {
            b"same\n" => 0,
            b"different\n" => 1,
            _ if due.error.ends_with(b"first\n") => 2,
            _ => 3,
        }] += 1;
        let contents = |words| format!("{words}\nfiles: {}, {}", to_hex(first), to_hex(second));
        program.compare(&strings(&paths), b"", due).map_err(contents)?;
    }
    // One file beside itself, and one that is refused beside itself.
    let [ari, refused]: [&str; 2] = [&files.put("ari", &[0])?, &files.put("refused", &[0, 0])?];
    program.compare(&[ari, ari], b"", Printed::out("same\n"))?;
    let due =
        Printed { error: format!("{refused}\n").into_bytes(), out: b"refused 13 1\n".to_vec() };
    program.compare(&[refused, refused], b"", due)?;
    compare_file_errors(program, &files, "same", ari, refused)?;
    let made = pairs.len() - fixed;
    let [alike, different, of_first, of_second] = answers;
    Ok(format!(
        "{fixed} fixed and {made} made pairs: {alike} the same, {different} different, {of_first} \
         refused for the first and {of_second} for the second"
    ))
}

/// Messages by hand: equal, the same in other letters, heads and sets, with a changed item in
/// each of the places of a target and of a report, in another order, longer, without targets.
const MESSAGES: [(&str, &str); 14] = [
    ("01", "01 82 14 81 f6"),
    ("01 82 14 82 f6 83 6161 20 00", "1801 82 14 82 00 9803 6141 3800 1800"),
    (
        "01 82 14 83 f6 83 00 20 00 83 00 20 01",
        "01 82 14 82 f6 83 00 20 00 82 14 82 f6 83 00 20 01",
    ),
    ("01 82 14 82 f6 83 00 20 00", "01 82 14 82 f6 83 01 20 00"),
    ("01 82 14 82 f6 83 00 20 00", "01 82 14 81 f6 82 14 82 f6 83 00 21 00"),
    ("01 82 14 82 f6 83 00 20 00", "01 82 15 83 f6 00 82 00 83 00 20 00"),
    ("01 82 14 82 f6 84 00 20 00 81 82 0e 6161", "01 82 14 82 f6 84 00 20 00 81 82 0e 6141"),
    ("01 82 14 82 f6 84 00 20 00 81 f93c00", "01 82 14 82 f6 84 00 20 00 81 fa3f800001"),
    ("01 82 15 83 f6 00 83 00 83 00 20 00 40", "01 82 15 83 f6 01 83 00 83 00 20 00 60"),
    ("01 82 14 83 f6 83 00 20 00 83 00 20 01", "01 82 14 83 f6 83 00 20 01 83 00 20 00"),
    ("01 82 14 83 f6 83 00 20 00 83 00 20 01", "01 82 14 82 f6 83 00 20 00"),
    ("02", "01 82 14 80"),
    ("01", "02"),
    ("01 82 14 82 f6 83 00 20 00", "83 00 20 00"),
];

/// A line for each position; or the refusal, and which file it is of on standard error.
fn compared_lines(first: &[u8], second: &[u8], files: &[String; 2]) -> Printed {
    match (compare(first, second, &LIMITS), items_message(first), items_message(second)) {
        (Ok(positions), Ok(ones), Ok(twos)) => {
            Printed::out(position_lines(&ones, &twos, &positions))
        }
        (Err(refusal), ones, _) => {
            let file = &files[usize::from(ones.is_ok())];
            Printed { error: format!("{file}\n").into_bytes(), ..line(refusal) }
        }
        _ => panic!("compared, but refused"),
    }
}

fn compare_messages(program: &Program, random: &mut Random) -> Result<String, String> {
    let files = Files::new()?;
    let mut pairs = MESSAGES.map(|(first, second)| (hex(first), hex(second))).to_vec();
    // Files that are longer than what is read of them.
    pairs.push((vec![1; 4 * LIMITS.bytes], hex("01")));
    pairs.push((hex("01"), vec![1; LIMITS.bytes + 2]));
    // Each beside one that is made of it, or beside the last one that was accepted before.
    let mut before = hex("01");
    for input in fixed(Call::Message) {
        let other = match items_message(&input) {
            Ok(_) => {
                before = input.clone();
                pairs::beside(random, &input)
            }
            Err(_) => before.clone(),
        };
        pairs.push(if random.chance(50) { (input, other) } else { (other, input) });
    }
    let fixed = pairs.len();
    for first in made_messages(random, 1_000) {
        // Those at full width may be too long.
        let mut second = match items_message(&first).is_ok() && random.chance(90) {
            true => pairs::beside(random, &first),
            false => first.clone(),
        };
        if random.chance(10) {
            generate::damage(random, &mut second, &[], &first);
        }
        pairs.push(if random.chance(50) { (first, second) } else { (second, first) });
    }
    // Those without a difference, and those refused for the first and for the second.
    let (mut none, mut refused) = (0, [0; 2]);
    let mut positions = [0; 4];
    for (first, second) in &pairs {
        let paths = [files.put("first", first)?, files.put("second", second)?];
        let due = compared_lines(first, second, &paths);
        let words = String::from_utf8_lossy(&due.out);
        if due.error.is_empty() {
            let count = |word: &str| words.lines().filter(|line| line.contains(word)).count();
            let all = ["same", "changed", "only first", "only second"].map(count);
            none += usize::from(all[1..] == [0; 3]);
            (0..4).for_each(|k| positions[k] += all[k]);
        } else {
            refused[usize::from(due.error.ends_with(b"second\n"))] += 1;
        }
        let contents = |words| format!("{words}\nfiles: {}, {}", to_hex(first), to_hex(second));
        program.compare(&strings(&paths), b"", due).map_err(contents)?;
    }
    let [message, wrong]: [&str; 2] = [&files.put("message", &[1])?, &files.put("wrong", &[2])?];
    program.compare(&[message, message], b"", Printed::out(""))?;
    let due = Printed { error: format!("{wrong}\n").into_bytes(), out: b"refused 8 0\n".to_vec() };
    program.compare(&[wrong, wrong], b"", due)?;
    compare_file_errors(program, &files, "compare", message, wrong)?;
    let made = pairs.len() - fixed;
    let [of_first, of_second] = refused;
    Ok(format!(
        "{fixed} fixed and {made} made pairs: {none} without a difference, positions same, \
         changed, only in the first and only in the second {positions:?}, {of_first} refused for \
         the first and {of_second} for the second"
    ))
}

/// The shorter message and nothing behind it, or a refusal's line.
fn compare_struck(program: &Program, random: &mut Random) -> Result<String, String> {
    let mut cases: Vec<(Vec<u8>, u64)> = Vec::new();
    for message in fixed(Call::Message) {
        // Of each, those at either end, and one more than there are
        let count = strikes::targets(&message) as u64;
        let numbers = match items_message(&message) {
            Ok(_) => &[0, 1, count.saturating_sub(1), count, u64::MAX][..],
            Err(_) => &[0],
        };
        cases.extend(numbers.iter().map(|number| (message.clone(), *number)));
    }
    let fixed = cases.len();
    for _ in 0..1_000 {
        let mut message = match random.chance(60) {
            true => strikes::message(random),
            false => made_messages(random, 1).remove(0),
        };
        if random.chance(10) {
            generate::damage(random, &mut message, &[], &[]);
        }
        let number = strikes::number(random, &message);
        cases.push((message, number));
    }
    for bytes in [LIMITS.bytes, LIMITS.bytes + 1, 4 * LIMITS.bytes] {
        let settings = generate::settings(random);
        cases.push((generate::full_message(random, settings, bytes), 0));
    }
    let (mut struck, mut no_such, mut refused) = (0, 0, 0);
    for (message, number) in &cases {
        let due = match strike(message, *number, &LIMITS) {
            Ok(Struck { message, .. }) => {
                struck += 1;
                Printed::out(message)
            }
            Err(refusal) => {
                no_such += usize::from(refusal.test == Test::NoTarget);
                refused += usize::from(refusal.test != Test::NoTarget);
                line(refusal)
            }
        };
        program.compare(&[&number.to_string()], message, due)?;
    }
    let message = &hex("01 82 14 82 f6 83 f6 20 00")[..];
    for number in ["", "x", "-1", "+0", "00", "0x0", "18446744073709551616", "0 ", " 0", "0\n"] {
        let error = "NUMBER is no number from 0 to 18446744073709551615\n";
        program.compare(&[number], message, Printed::error(error))?;
    }
    for arguments in [&[][..], &["0", "0"], &["0", ""]] {
        program.compare(arguments, message, Printed::error("usage: gate strike NUMBER\n"))?;
    }
    let made = cases.len() - fixed;
    Ok(format!(
        "{fixed} fixed and {made} made messages: {struck} struck, {no_such} without such a target, \
         {refused} refused otherwise"
    ))
}

/// The figures of some files with their lists, one in each line; or of the first that is refused
/// the refusal alone, with its name on standard error.
fn compare_month(program: &Program, random: &mut Random) -> Result<String, String> {
    let files = Files::new()?;
    let (mut added, mut refused, mut most) = (0, 0, 0);
    let months = 600;
    for k in 0..months {
        // Among them a month without files.
        let days = if k == 0 { Vec::new() } else { months::month(random) };
        let (mut month, mut wrong) = (Month::default(), None);
        let mut input = String::new();
        for (n, (file, lists)) in days.iter().enumerate() {
            let path = files.put(&format!("day{n}"), file)?;
            let paths = [
                files.put(&format!("published{n}"), &lists.0)?,
                files.put(&format!("own{n}"), &lists.1)?,
            ];
            let given = list_arguments(random, lists, paths);
            input += &[&[path.clone()][..], &given].concat().join(" ");
            input.push('\n');
            if wrong.is_none() {
                let answer = month.add(file, &lists.0, &lists.1, &form_of(file), &BOUNDS);
                added += usize::from(answer.is_ok());
                wrong = answer.err().map(|refusal| (refusal, path));
            }
        }
        let got = program.run(&[], input.as_bytes())?;
        let error = String::from_utf8_lossy(&got.error);
        let (due, is_named) = match &wrong {
            None => (month_lines(&month), error.is_empty()),
            Some((refusal, path)) => (format!("{refusal}\n"), error.contains(path)),
        };
        refused += usize::from(wrong.is_some());
        most = most.max(month.namespaces().count());
        if got.out != due.as_bytes() || !is_named {
            return Err(format!("input {input:?}\nthe reading: {due:?}\nthe program: {got}"));
        }
    }
    Ok(format!(
        "{months} months, {refused} of them refused, {added} files added, {most} namespaces at the \
         most"
    ))
}

/// The most that the composer reads of its standard input.
const TEXTS: usize = 262_143;

/// A nonce as it is given to the program: "`null`, a number in decimal or `h` and hex digits in
/// quotes as in ARI text".
fn nonce_word(nonce: Nonce) -> String {
    match nonce {
        Nonce::Null => "null".to_string(),
        Nonce::Number(number) => number.to_string(),
        Nonce::Bytes(bytes) => format!("h%27{}%27", to_hex(bytes)),
    }
}

/// The message and nothing behind it, or a refusal's line.
fn composed_lines(nonce: Nonce, texts: &[u8]) -> Printed {
    composed(nonce, texts, &LIMITS).map_or_else(line, |(message, _)| Printed::out(message))
}

fn compare_composer(program: &Program, random: &mut Random) -> Result<String, String> {
    let (mut written, mut refused, mut targets) = (0, 0, 0);
    let mut compare = |nonce: Nonce<'_>, texts: &[u8]| {
        let due = composed_lines(nonce, texts);
        let is_refused = due.out.starts_with(b"refused");
        *(if is_refused { &mut refused } else { &mut written }) += 1;
        targets += texts.split(|byte| *byte == b'\n').filter(|_| !is_refused).count();
        program.compare(&[&nonce_word(nonce)], texts, due)
    };
    let mut made = 0;
    while made < 1_500 {
        let Order { kind, number, nonce, texts } = orders::order(random);
        let Ok(nonce) = Nonce::of(kind, number, &nonce) else { continue };
        if texts.len() > TEXTS || nonce_word(nonce).len() > 100_000 {
            continue;
        }
        compare(nonce, &texts)?;
        made += 1;
    }
    // At the ends of what the program takes.
    compare(Nonce::Null, &vec![b'0'; TEXTS])?;
    compare(Nonce::Null, &b"./-1/0\n".repeat(TEXTS / 7))?;
    for number in [0, 1 << 32, i64::MAX as u64, 1 << 63, u64::MAX] {
        compare(Nonce::Number(number), b"./-1/0\n")?;
    }
    // A number that is far out of range is so as well.
    for number in ["18446744073709551616", "99999999999999999999999999999999"] {
        program.compare(&[number], b"./-1/0\n", Printed::out("refused 7 0\n"))?;
    }
    // Where it cannot do its work it writes nothing, and says why.
    let fails = |arguments: &[&str], texts: &[u8]| {
        let got = program.run(arguments, texts)?;
        match got.out.is_empty() && !got.error.is_empty() {
            true => Ok(()),
            false => Err(format!("{arguments:?}, {} bytes of texts: {got}", texts.len())),
        }
    };
    let wrong =
        ["", "-1", "+1", "007", "1 ", "Null", "nil", "h", "h%27", "h%270%27", "h%27zz%27", "x"];
    for nonce in wrong {
        fails(&[nonce], b"./-1/0\n")?;
    }
    fails(&[], b"./-1/0\n")?;
    fails(&["null", "null"], b"./-1/0\n")?;
    fails(&["null"], &vec![b'0'; TEXTS + 1])?;
    Ok(format!("{} orders: {written} composed with {targets} targets, {refused} refused", made + 7))
}

fn main() -> ExitCode {
    let arguments: Vec<String> = std::env::args().skip(1).collect();
    let (seed, known) = match &arguments[..] {
        [command, program] => (Some(1), Some((command, program))),
        [command, program, flag, seed] if flag == "--seed" => {
            (seed.parse().ok(), Some((command, program)))
        }
        _ => (None, None),
    };
    let compare = known.and_then(|(command, _)| match command.as_str() {
        "list" => Some(list as fn(&Program, &mut Random) -> Result<String, String>),
        "items" => Some(items as _),
        "stream" => Some(stream as _),
        "text" => Some(text as _),
        "table" => Some(table as _),
        "names" => Some(compare_names as _),
        "release" => Some(compare_released as _),
        "why" => Some(compare_why as _),
        "same" => Some(compare_same as _),
        "compare" => Some(compare_messages as _),
        "strike" => Some(compare_struck as _),
        "month" => Some(compare_month as _),
        "composer" => Some(compare_composer as _),
        _ => None,
    });
    let (Some(seed), Some((command, program)), Some(compare)) = (seed, known, compare) else {
        eprintln!(
            "usage: programs list|items|stream|text|table|names|release|why|same|compare|strike|\
             month|composer PROGRAM [--seed S]"
        );
        return ExitCode::FAILURE;
    };
    match compare(&Program(program.clone()), &mut Random::new(seed)) {
        Ok(summary) => {
            println!("{summary} (seed {seed}): all agree");
            ExitCode::SUCCESS
        }
        Err(difference) => {
            eprintln!("{command}: {difference}");
            ExitCode::FAILURE
        }
    }
}
