# The part of tests/host/run that tests `gate month`: what it writes and its status, beside
# month.expected, plain and with the sanitizers. Read by run, whose functions and names it uses.

month_made=$made/month

# month_says: what was written, the words of the lines that are said on standard error, or that
# something is said, and the status
month_says() {
  cat out
  if [ -s error ]; then
    said=
    for word in $(cat lines); do
      grep -Fqw -e "$word" error && said="$said $word"
    done
    printf 'said:%s\n' "${said:- something}"
  fi
  printf 'exit status %s\n' "$1"
}

# month_run TITLE LINE...: the lines on standard input
month_run() {
  printf -- '-- %s\n' "$1"
  shift
  for line; do
    printf '%s\n' "$line"
  done >lines
  "$month" <lines >out 2>error
  month_says $?
}

# to_namespaces FIRST COUNT: a file of version 2 with a message that has a reference to each
to_namespaces() {
  length=$((12 + 4 * $2))
  {
    printf '01 82 14 82 f6 84 f6 20 00 99 %04x' "$2"
    k=$1
    while [ $k -lt $(($1 + $2)) ]; do
      printf '81 19 %04x' $k
      k=$((k + 1))
    done
    printf '00000000 02 00 0001 %08x' $length
  } >digits
  bytes "$(cat digits)"
}

# As long as a file may be: 63 messages of 16,384 bytes and one of 16,120.
full_day() {
  k=0
  table=
  while [ $k -lt 63 ]; do
    note 16384
    table="$table $(printf %08x $((16384 * k)))"
    k=$((k + 1))
  done
  note 16120
  bytes "$table $(printf %08x $((16384 * 63))) 02 00 0040 $(printf %08x $((16384 * 63 + 16120)))"
}

month_days() {
  month_run "no files"
  month_run "no messages" empty
  month_run "no messages, version 2" empty_2
  month_run "one message" one
  month_run "three messages" three
  month_run "three messages, version 2" three_2
  month_run "one file after another" one three_2 empty three
  month_run "one file again and again" one one one
  month_run "names without lists" named
  month_run "names by the published list" "named published"
  month_run "names by both lists" "named published own"
  month_run "names by the own list" "named empty_list own"
  month_run "names by other lists each time" "named other own" "named published" "named other other" named
  month_run "the ends of numbers" ends
  month_run "a full day" full
  month_run "another one" full three full
  month_run "256 namespaces, in one file and in two" first_256 first_200 last_100 | sed '9,260d'
}

month_refusals() {
  month_run "a bad trailer" wrong_trailer
  month_run "a bad table" one wrong_table
  month_run "a message that is refused" one wrong_message three
  month_run "a wrong line of the published list" "named wrong_list own"
  month_run "a wrong line of the own list" one "named published wrong_list"
  month_run "the file is refused before the list" "wrong_table wrong_list"
  month_run "the list is refused before the namespaces" "first_257 wrong_list"
  month_run "257 namespaces" first_257
  month_run "257 namespaces in two files" first_256 "one published"
  month_run "a byte more than a full day" longer
  month_run "the first that is refused" wrong_table wrong_message
}

month_errors() {
  month_run "a missing file" none
  month_run "a missing file after others" one none three
  month_run "a missing list" "one none"
  month_run "a missing own list" "one published none"
  month_run "a folder" folder
  month_run "a folder as a list" "one folder"
  month_run "too many words" "one published own other"
  : >lines
  for words in one 'one one' ''; do
    printf -- "-- the argument '%s'\n" "$words"
    "$month" "$words" <lines >out 2>error
    month_says $?
  done
  printf -- '-- standard input is a folder\n'
  "$month" <folder >out 2>error
  month_says $?
  printf -- '-- no standard input\n'
  "$month" <&- >out 2>error
  month_says $?
  : >out
  if [ -c /dev/full ]; then
    for file in one empty; do
      printf -- '-- a full device: %s\n' $file
      printf '%s\n' $file | "$month" >/dev/full 2>error
      month_says $?
    done
    printf -- '-- no standard output\n'
    printf 'one\n' | "$month" 2>error >&-
    month_says $?
  fi
}

# month_transcript PROGRAM FILE
month_transcript() {
  month=$1
  {
    month_days
    month_refusals
    month_errors
  } >"$2" 2>&1
}

month_files() {
  mkdir folder
  bytes "01 00 0000 00000000" >empty
  bytes "02 00 0000 00000000" >empty_2
  bytes "$one" >one
  bytes "$three" >three
  bytes "$three_2" >three_2
  bytes "$named $names 0000 0010 01 00 0002 $(printf %08x $((16 + 47)))" >named
  bytes "01 82 14 84 f6 83 1b7fffffffffffffff 20 00 83 3b7fffffffffffffff 20 00 83 f6 20 00 00000000 02 00 0001 00000021" >ends
  full_day >full
  { cat full && printf 0; } >longer
  to_namespaces 1000 256 >first_256
  to_namespaces 1000 257 >first_257
  to_namespaces 1000 200 >first_200
  to_namespaces 1156 100 >last_100
  bytes "00" >wrong_trailer
  bytes "01 01 00000000 00000000 02 00 0002 00000002" >wrong_table
  bytes "01 02 00000000 00000001 02 00 0002 00000002" >wrong_message
  printf 'bodies=1\na=65536\na=1\n' >published
  printf '!a=-20\n!Odm1=65536\n' >own
  printf 'A=-9223372036854775808\n' >other
  : >empty_list
  printf 'a=1\nb=+1\n' >wrong_list
}

month_tests() {
  month_files
  month_transcript "$month_made/gate_month" transcript
  if diff "$here/month.expected" transcript; then
    printf 'host: month: %s runs as stored\n' "$(grep -c '^--' transcript)"
  else
    fail 'gate month wrote something else than month.expected'
  fi
  if $CC $strict -O1 -fsanitize=address,undefined -o "$month_made/sanitized" $month_sources \
    "$SURFBODKIN_ARCHIVE" 2>/dev/null; then
    month_transcript "$month_made/sanitized" sanitized.out
    if diff transcript sanitized.out; then
      printf 'host: month with the sanitizers: the same\n'
    else
      fail 'gate month with the sanitizers'
    fi
  else
    printf 'host: month with the sanitizers: skipped, not here\n'
  fi
}

month_sources="$root/host/month.c $root/host/program.c $root/host/day_file.c"
missing=$(missing month_open month_add month_read)
if [ -n "$missing" ]; then
  printf 'host: month: skipped, not in the archive:%s\n' "$missing"
else
  rm -rf "$month_made"
  mkdir -p "$month_made"
  # shellcheck disable=SC2086
  if $CC $strict -O2 -o "$month_made/gate_month" $month_sources "$SURFBODKIN_ARCHIVE"; then
    cd "$month_made" && month_tests
    cd "$root" || exit 1
  else
    fail 'month.c does not build'
  fi
fi
