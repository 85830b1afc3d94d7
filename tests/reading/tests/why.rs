//! Why a message was held, beside request (vii): chains worked out from the bytes, and laws
//! that hold of every message.

use reading::archive::packed_why;
use reading::generate::names::Lists;
use reading::generate::nests::{nest, Nest};
use reading::generate::{self, names as made, Random};
use reading::names::number_of;
use reading::printed::why_lines;
use reading::vectors::{hex, to_hex};
use reading::why::{chains, why, write, Link, Meaning, Reason, Why, LINK};
use reading::*;

/// Bytes with comments: what stands behind a `#` is not read, and line feeds are spaces.
fn commented(lines: &str) -> Vec<u8> {
    let digits: Vec<&str> =
        lines.lines().map(|line| line.split('#').next().unwrap_or_default().trim()).collect();
    hex(&digits.join(" "))
}

const C: &str = "
    01                      #  0 version
    82                      #  1 set 0
      14                    #  2
      82                    #  3 its inner array
        f6                  #  4 nonce
        84                  #  5 target 0
          1a00010000 22 00  #  6, 11, 12
          81                # 13 parameter list
            83              # 14 parameter 0
              33 2a 05      # 15, 16, 17";

/// A list in a map in the parameter map of a report's item.
const MAPS: &str = "
    01                      #  0
    82                      #  1 set 0
      15                    #  2
      83                    #  3 its inner array
        f6                  #  4 nonce
        00                  #  5 time
        84                  #  6 report 0
          00                #  7 its time
          83 00 20 00       #  8 its source
          f7                # 12 item 0
          84                # 13 item 1
            00 20 00        # 14, 15, 16
            a2              # 17 parameter map
              1818 f6       # 18 key 24, 20 its value
              6161          # 21 key a
              82            # 23 its value, an AM
                12          # 24
                a2          # 25
                  20 05     # 26 key -1, 27 its value
                  626262    # 28 key bb
                  82        # 31 its value, an AC
                    11      # 32
                    82      # 33
                      f6    # 34 member 0
                      83    # 35 member 1
                        33 20 00  # 36, 37, 38";

/// An AC as a parameter of the second target, and an empty set behind all.
const COLLECTION: &str = "
    01                      #  0
    82                      #  1 set 0
      14                    #  2
      83                    #  3 its inner array
        00                  #  4 nonce
        83 05 20 00         #  5 target 0
        84                  #  9 target 1
          05 20 00          # 10, 11, 12
          83                # 13 parameter list
            f6              # 14 parameter 0
            82              # 15 parameter 1, an AC
              11            # 16
              83            # 17
                81 05       # 18 member 0
                83          # 20 member 1
                  6161      # 21 its namespace, a
                  20 00     # 23, 24
                00          # 25 member 2
            f7              # 26 parameter 2
    82 14 81 f6             # 27 set 1";

/// As many containers as may be open, each within the one before, and a last reference.
const DEEPEST: &str = "
    01                      #  0
    82                      #  1 set 0
      15                    #  2
      83                    #  3 its inner array
        f6                  #  4
        00                  #  5
        83                  #  6 report 0
          00                #  7
          83 00 20 00       #  8 its source
          82                # 12 item 0, an AC
            11              # 13
            81              # 14
              82            # 15 member 0, an AM
                12          # 16
                a1          # 17
                  00        # 18 key 0
                  84        # 19 its value, a reference
                    00 20 00      # 20, 21, 22
                    81            # 23 parameter list
                      84          # 24 parameter 0
                        00 20 00  # 25, 26, 27
                        a1        # 28 parameter map
                          6161    # 29 key a
                          82 11 81 82 11 81 82 11 81 # 31 its value, lists in lists
                          82 11 81 82 11 81 82 11 81 # 40
                          81 01   # 49 the innermost one's member";

/// An empty set, then two reports, the second one's source relative.
const REPORTS: &str = "
    01                      #  0
    82 14 81 f6             #  1 set 0
    82                      #  5 set 1
      15                    #  6
      84                    #  7 its inner array
        f6                  #  8
        00                  #  9
        82                  # 10 report 0
          00                # 11
          83 00 20 00       # 12 its source
        84                  # 16 report 1
          05                # 17
          83 f6 20 00       # 18 its source
          f7                # 22 item 0
          81 622161         # 23 item 1, the namespace !a";

fn table(rows: &[(u64, i64)]) -> Vec<u8> {
    let row = |&(subscriber, namespace)| Row { subscriber, namespace };
    table_bytes(&rows.iter().map(row).collect::<Vec<_>>())
}

fn asked(
    message: &[u8],
    table: &[u8],
    published: &str,
    own: &str,
    subscriber: u64,
) -> Result<Why, Refusal> {
    why(message, table, published.as_bytes(), own.as_bytes(), subscriber, &LIMITS)
}

/// The answer for subscriber 7, in words.
fn told(lines: &str, granted: &[i64], published: &str, own: &str) -> String {
    let rows: Vec<(u64, i64)> = granted.iter().map(|number| (7, *number)).collect();
    match asked(&commented(lines), &table(&rows), published, own, 7) {
        Err(refusal) => refusal.to_string(),
        Ok(Why::Released) => "released".to_string(),
        Ok(Why::Held { entry, reason, chain }) => {
            let mut words = format!("{entry} {reason:?}");
            for Link { first, after, meaning } in chain {
                words += &format!(", {first} {after} {meaning:?}");
            }
            words
        }
    }
}

#[test]
fn message_c() {
    assert_eq!(to_hex(&commented(C)), "01821482f6841a0001000022008183332a05");
    assert_eq!(told(C, &[], "", ""), "0 NotGranted, 1 18 Set(0), 3 18 TypedValue, 5 18 Target(0)");
    assert_eq!(
        told(C, &[65_536], "", ""),
        "1 NotGranted, 1 18 Set(0), 3 18 TypedValue, 5 18 Target(0), 13 18 ParameterList, \
         14 18 Parameter(0)"
    );
    assert_eq!(told(C, &[65_536, -20], "", ""), "released");
    assert_eq!(told("01", &[], "", ""), "released");
}

#[test]
fn places_of_keys() {
    assert_eq!(
        told(MAPS, &[0], "", ""),
        "2 NotGranted, 1 39 Set(0), 3 39 TypedValue, 6 39 Report(0), 13 39 ReportItem(1), \
         17 39 ParameterMap, 23 39 MapValue { key: 21 }, 25 39 TypedValue, \
         31 39 MapValue { key: 28 }, 33 39 TypedValue, 35 39 CollectionMember(1)"
    );
    assert_eq!(told(MAPS, &[0, -20], "", ""), "released");
    assert_eq!(
        told(MAPS, &[-20], "", ""),
        "0 NotGranted, 1 39 Set(0), 3 39 TypedValue, 6 39 Report(0), 8 12 ReportSource"
    );
}

/// A name without a line, one with a line in the other list only, and one with a line, its
/// letters in either case.
#[test]
fn names_in_a_collection() {
    let chain = ", 1 27 Set(0), 3 27 TypedValue, 9 27 Target(1), 13 27 ParameterList, \
                 15 26 Parameter(1), 17 26 TypedValue, 20 25 CollectionMember(1)";
    for (published, own) in
        [("", ""), ("b=5\n!a=5\n", "a=5\n"), ("B=5\n!A=5\naa=5\nAA=5\n", "A=5\n")]
    {
        assert_eq!(told(COLLECTION, &[5], published, own), format!("3 NameUnknown{chain}"));
    }
    let capital = COLLECTION.replace("6161", "6141");
    for lines in [COLLECTION, &capital] {
        for published in ["a=6\n", "A=6\n", "a=6\na=5\n", "a=6\nA=5\n", "A=6\na=5\n", "b=5\na=-5\n"]
        {
            assert_eq!(told(lines, &[5], published, ""), format!("3 NotGranted{chain}"));
        }
        for published in ["a=5\n", "A=5\naa=6\n", "a=5\na=6\n", "a=5\nA=6\n", "A=5\na=6\n"] {
            assert_eq!(told(lines, &[5], published, ""), "released", "{published}");
        }
        assert_eq!(told(lines, &[5, 6], "a=6\n", ""), "released");
    }
}

/// Sets are counted, the empty one too, and reports through all sets; a relative source is
/// held whatever is granted, and the entries behind it are not asked for.
#[test]
fn relative_sources() {
    let all = [0, 1, 2, -1];
    let chain = ", 5 27 Set(1), 7 27 TypedValue, 16 27 Report(1)";
    assert_eq!(told(REPORTS, &all, "", "!a=0\n"), format!("1 Relative{chain}, 18 22 ReportSource"));
    let absolute = REPORTS.replace("83 f6 20 00", "83 01 20 00");
    assert_eq!(
        told(&absolute, &all, "!a=0\n", ""),
        format!("2 NameUnknown{chain}, 23 27 ReportItem(1)")
    );
    assert_eq!(
        told(&absolute, &all, "", "!a=9\n"),
        format!("2 NotGranted{chain}, 23 27 ReportItem(1)")
    );
    assert_eq!(told(&absolute, &all, "", "!a=2\n"), "released");
}

/// A report behind a target of another set is number 1.
#[test]
fn counted_through_the_sets() {
    // Bytes 1 to 8 are set 0 with a target, 9 to 19 set 1 with a report (14) and its source (16).
    let message = "01 82 14 82 f6 83 00 20 00 82 15 83 f6 00 82 00 83 01 20 00";
    assert_eq!(
        told(message, &[0], "", ""),
        "1 NotGranted, 9 20 Set(1), 11 20 TypedValue, 14 20 Report(1), 16 20 ReportSource"
    );
}

#[test]
fn as_many_links_as_containers() {
    assert_eq!(
        told(DEEPEST, &[0], "", ""),
        "3 NotGranted, 1 51 Set(0), 3 51 TypedValue, 6 51 Report(0), 12 51 ReportItem(0), \
         14 51 TypedValue, 15 51 CollectionMember(0), 17 51 TypedValue, 19 51 MapValue { key: 18 }, \
         23 51 ParameterList, 24 51 Parameter(0), 28 51 ParameterMap, 31 51 MapValue { key: 29 }, \
         33 51 TypedValue, 34 51 CollectionMember(0), 36 51 TypedValue, 37 51 CollectionMember(0), \
         39 51 TypedValue, 40 51 CollectionMember(0), 42 51 TypedValue, 43 51 CollectionMember(0), \
         45 51 TypedValue, 46 51 CollectionMember(0), 48 51 TypedValue, 49 51 CollectionMember(0)"
    );
    // One more is refused, as release refuses it.
    let deeper = DEEPEST.replace("81 01 ", "84 01 20 00 81 00");
    assert_eq!(told(&deeper, &[0], "", ""), "refused 6 53");
}

/// "what release refuses is refused alike": the message, 19, 18.
#[test]
fn refusals() {
    let (message, ragged) = (commented(C), [0; 17]);
    let answer = |message: &[u8], table: &[u8], published: &str, own: &str| {
        asked(message, table, published, own, 7).unwrap_err().to_string()
    };
    assert_eq!(answer(&hex("02"), &ragged, "a", "b"), "refused 8 0");
    assert_eq!(answer(&[1; 16_385], &ragged, "a", "b"), "refused 1 0");
    assert_eq!(answer(&message, &ragged, "a=1\nb\n", "c"), "refused 19 4");
    assert_eq!(answer(&message, &ragged, "a=1\n", "b=2\n\n"), "refused 19 8");
    assert_eq!(answer(&message, &ragged, "a=1\n", "b=2\n"), "refused 18 1");
    assert_eq!(answer(&[1], &ragged, "", ""), "refused 18 1");
    let far = Refusal { test: Test::Names, place: usize::MAX };
    assert_eq!(packed_why(Err(far)), 0x13ff_ffff_ffff_ffff);
    let short = Refusal { test: Test::Room, place: 120 };
    assert_eq!(packed_why(Err(short)), 0x1000_0000_0000_0078);
    assert_eq!(packed_why(Ok(Why::Released)), 0);
}

#[test]
fn chains_as_bytes() {
    let only = table(&[(7, 65_536)]);
    let answer = asked(&commented(C), &only, "", "", 7).unwrap();
    assert_eq!(packed_why(Ok(answer.clone())), 0xff00_0005_0000_0001);
    let bytes = commented(
        "00000001 00000012 0000000000000000 ffffffffffffffff
         00000003 00000012 0000000000000001 ffffffffffffffff
         00000005 00000012 0000000000000002 ffffffffffffffff
         0000000d 00000012 0000000000000003 ffffffffffffffff
         0000000e 00000012 0000000000000004 ffffffffffffffff",
    );
    for length in [0, 1, 24, 96, 119] {
        let mut room = vec![0xa5; length];
        let refusal = Refusal { test: Test::Room, place: 120 };
        assert_eq!(write(answer.clone(), &mut room), Err(refusal), "{length}");
        assert!(room.iter().all(|byte| *byte == 0xa5));
    }
    for more in [0, 1, 24, 200] {
        let mut room = vec![0xa5; 120 + more];
        assert_eq!(write(answer.clone(), &mut room), Ok(answer.clone()));
        assert_eq!(room, [&bytes[..], &vec![0xa5; more]].concat());
    }
    let mut room = [0xa5; 24];
    assert_eq!(write(Why::Released, &mut room), Ok(Why::Released));
    assert_eq!(room, [0xa5; 24]);

    // The other meanings and reasons; a map value has its key's place.
    let written = |lines: &str, granted: &[(u64, i64)]| {
        let answer = asked(&commented(lines), &table(granted), "", "", 7).unwrap();
        let Why::Held { chain, .. } = &answer else { panic!("released") };
        let mut room = vec![0; LINK * chain.len()];
        (packed_why(write(answer.clone(), &mut room)), room)
    };
    let (answer, room) = written(MAPS, &[(7, 0)]);
    assert_eq!(answer, 0xff00_000a_0000_0002);
    assert_eq!(
        room,
        commented(
            "00000001 00000027 0000000000000000 ffffffffffffffff
             00000003 00000027 0000000000000001 ffffffffffffffff
             00000006 00000027 0000000000000006 ffffffffffffffff
             0000000d 00000027 0000000000000008 ffffffffffffffff
             00000011 00000027 0000000000000003 ffffffffffffffff
             00000017 00000027 0000000000000005 0000000000000015
             00000019 00000027 0000000000000001 ffffffffffffffff
             0000001f 00000027 0000000000000005 000000000000001c
             00000021 00000027 0000000000000001 ffffffffffffffff
             00000023 00000027 0000000000000009 ffffffffffffffff"
        )
    );
    let (answer, room) = written(REPORTS, &[(7, 0)]);
    assert_eq!(answer, 0xff02_0004_0000_0001);
    assert_eq!(room[72..], hex("00000012 00000016 0000000000000007 ffffffffffffffff"));
    let (answer, _) = written(COLLECTION, &[(7, 5)]);
    assert_eq!(answer, 0xff01_0007_0000_0003);
}

fn printed(lines: &str, granted: &[i64], published: &str, own: &str) -> String {
    let rows: Vec<(u64, i64)> = granted.iter().map(|number| (7, *number)).collect();
    let message = commented(lines);
    let answer = asked(&message, &table(&rows), published, own, 7);
    why_lines(&message, published.as_bytes(), own.as_bytes(), 7, &answer)
}

#[test]
fn lines_of_the_program() {
    assert_eq!(printed(C, &[65_536, -20], "", ""), "released\n");
    assert_eq!(printed("02", &[], "", ""), "refused 8 0\n");
    assert_eq!(
        printed(C, &[65_536], "", ""),
        "held: entry 1, ari://-20/-11/5: namespace -20 is not granted to subscriber 7
  byte 1: set 0
    byte 3: typed value
      byte 5: target 0
        byte 13: parameter list
          byte 14: parameter 0
"
    );
    assert_eq!(
        printed(MAPS, &[0], "", ""),
        "held: entry 2, ari://-20/-1/0: namespace -20 is not granted to subscriber 7
  byte 1: set 0
    byte 3: typed value
      byte 6: report 0
        byte 13: report item 1
          byte 17: parameter map
            byte 23: map value, key %22a%22
              byte 25: typed value
                byte 31: map value, key %22bb%22
                  byte 33: typed value
                    byte 35: collection member 1
"
    );
    assert_eq!(
        printed(REPORTS, &[0], "", ""),
        "held: entry 1, ./-1/0: relative, without a namespace
  byte 5: set 1
    byte 7: typed value
      byte 16: report 1
        byte 18: report source
"
    );
    // Only the first line differs by the lists.
    for (published, words) in [
        ("", "namespace a is not in the published list"),
        ("a=6\n", "namespace a, number 6, is not granted to subscriber 7"),
    ] {
        let lines = printed(COLLECTION, &[5], published, "");
        let (first, links) = lines.split_once('\n').unwrap();
        assert_eq!(first, format!("held: entry 3, ari://a/-1/0: {words}"));
        assert!(links.ends_with("              byte 20: collection member 1\n"), "{links}");
    }
    let absolute = REPORTS.replace("83 f6 20 00", "83 00 20 00");
    let own = printed(&absolute, &[0], "", "!b=0\n");
    assert!(own.starts_with("held: entry 2, ari://!a/: namespace !a is not in the own list\n"));
    // Keys that are integers, and a reference with a float, which has no text.
    let float = MAPS
        .replace("20 05     # 26", "20 84 00 20 00 81 f93c00 #")
        .replace("1818 f6 ", "1818 81 01 ");
    let lines = printed(&float, &[0, 1, -20], "", "");
    assert_eq!(lines, "released\n");
    let lines = printed(&float, &[0], "", "");
    assert!(lines.ends_with("            byte 20: map value, key 24\n"), "{lines}");
    let held = float.replace("20 84 00", "20 84 05");
    let lines = printed(&held, &[0, 1], "", "");
    assert!(
        lines.starts_with("held: entry 3, bytes 28 to 36: namespace 5 is not granted"),
        "{lines}"
    );
    assert!(lines.ends_with("                byte 28: map value, key -1\n"), "{lines}");
}

/// The chain to item `k` by the records alone: the containers are those whose bytes hold the
/// item's, a map value's key is the item just before it, and the meaning goes by the
/// container around, whose own meaning is known already.
fn chain_of(records: &[Record], k: usize) -> Vec<(usize, usize, u64, Option<usize>)> {
    let holds = |one: &Record| one.first <= records[k].first && records[k].after <= one.after;
    let is_container = |one: &Record| matches!(one.kind, Kind::Array(_) | Kind::Map(_));
    let around: Vec<usize> =
        (0..=k).filter(|&j| is_container(&records[j]) && holds(&records[j])).collect();
    let mut chain: Vec<(usize, usize, u64, Option<usize>)> = Vec::new();
    for (depth, &j) in around.iter().enumerate() {
        assert_eq!(records[j].around, depth);
        let outer = around[..depth].last().map(|&outer| (outer, &records[outer]));
        let meaning = match (outer, chain.last().map(|link| link.2)) {
            (Some((_, Record { kind: Kind::Map(_), .. })), _) => 5,
            (Some((_, Record { reference: true, .. })), _) => 3,
            (Some(_), Some(3)) => 4,
            // The type stands behind the head of the literal around.
            (Some(_), Some(1)) => match records[around[depth - 2] + 1].kind {
                Kind::Unsigned(20) => 2,
                Kind::Unsigned(21) => 6,
                _ => 9,
            },
            // A report's source stands behind its head and its time.
            (Some((outer, _)), Some(6)) => 8 - u64::from(outer + 2 == j),
            (Some(_), _) => 1,
            (None, _) => 0,
        };
        let key = (meaning == 5).then(|| records[j - 1].first);
        chain.push((records[j].first, records[j].after, meaning, key));
    }
    chain
}

/// Messages with lists and tables, half of them made to be held at their deepest reference.
fn cases(count: usize) -> impl Iterator<Item = Nest> {
    let mut random = Random::new(6);
    (0..count).map(move |k| {
        if k % 2 == 0 {
            let containers = 4 + random.below(LIMITS.containers - 3);
            return nest(&mut random, containers);
        }
        let settings = generate::settings(&mut random);
        let mut message = generate::message(&mut random, settings);
        let known: Vec<Vec<u8>> = (0..3).map(|_| made::any_name(&mut random)).collect();
        made::rename(&mut random, &mut message, &known, 30);
        let lists: Lists = made::lists_for(&mut random, &message);
        let (table, subscriber) = made::table_for(&mut random, &message, &lists);
        Nest { message, lists, table, subscriber }
    })
}

/// "The chain is real: each link directly holds the next".
#[test]
fn chains_are_those_of_the_records() {
    let (mut references, mut meanings) = (0, [0; 10]);
    for Nest { message, .. } in cases(1_500) {
        let Ok(records) = items_message(&message) else { continue };
        let chains = chains(&message);
        let listed: Vec<usize> = (0..records.len()).filter(|&k| records[k].reference).collect();
        assert_eq!(chains.len(), listed.len());
        for (chain, k) in chains.iter().zip(listed) {
            let links: Vec<_> = chain
                .iter()
                .map(|l| (l.first, l.after, l.meaning.number(), l.meaning.key()))
                .collect();
            assert_eq!(links, chain_of(&records, k), "item {k} of {}", to_hex(&message));
            // The target's number is that of the item's record.
            let target = chain.iter().find_map(|link| match link.meaning {
                Meaning::Target(number) | Meaning::Report(number) => Some(number),
                _ => None,
            });
            assert_eq!(target, records[k].target);
            links.iter().for_each(|link| meanings[link.2 as usize] += 1);
            references += 1;
        }
    }
    assert!(references > 5_000 && meanings.iter().all(|times| *times > 300), "{meanings:?}");
}

/// The entry, the released and the refused are release's; the last link is the entry; the
/// reason goes by its namespace; "At most 12 links".
#[test]
fn answers_are_those_of_release() {
    let (mut reasons, mut released, mut refused, mut deepest) = ([0; 3], 0, 0, 0);
    for Nest { message, lists: (published, own), table, subscriber } in cases(3_000) {
        let release = names::release(&message, &table, &published, &own, subscriber, &LIMITS);
        match (why(&message, &table, &published, &own, subscriber, &LIMITS), release) {
            (Err(one), Err(two)) => {
                assert_eq!(one, two);
                refused += 1;
            }
            (Ok(Why::Released), Ok(Release::Yes)) => released += 1,
            (Ok(Why::Held { entry, reason, chain }), Ok(Release::No(named))) => {
                assert_eq!(entry, named);
                let Entry { first, after, namespace } = listing(&message).unwrap().entries[entry];
                let last = chain.last().unwrap();
                assert_eq!((last.first, last.after), (first, after));
                let number = number_of(&message, namespace, &published, &own);
                let expected = match (number, namespace) {
                    (Some(_), _) => Reason::NotGranted,
                    (None, Namespace::Name(_)) => Reason::NameUnknown,
                    (None, _) => Reason::Relative,
                };
                assert_eq!(reason, expected);
                if let Some(namespace) = number {
                    assert!(!rows(&table).unwrap().contains(&Row { subscriber, namespace }));
                }
                assert!(chain.len() <= LIMITS.containers);
                deepest += usize::from(chain.len() == LIMITS.containers);
                reasons[reason as usize] += 1;
            }
            (answer, release) => panic!("{answer:?}, but release {release:?}"),
        }
    }
    let counts = [reasons[0], reasons[1], reasons[2], released, refused, deepest];
    assert!(counts.iter().all(|times| *times > 20), "{counts:?}");
}
