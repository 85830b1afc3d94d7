# The part of tests/host/run that tests `gate day` and the day file of the example host
# program: what each command writes and its status, beside day.expected, plain and with
# the sanitizers; an `add` and an `upgrade` that are killed at each of their system calls,
# or are given an error by each; and many adds at once. Read by run, whose functions and names it uses.

day_made=$made/day

# day_run TITLE ARGUMENT..., with the file `message` on standard input
day_run() {
  printf -- '-- %s\n' "$1"
  shift
  "$day" "$@" 2>&1 <message
  printf 'exit status %s\n' $?
}

# day_get TITLE FILE NUMBER: the bytes in hex
day_get() {
  printf -- '-- %s\n' "$1"
  "$day" get "$2" "$3" >got 2>&1
  status_of_get=$?
  if [ $status_of_get = 0 ]; then od -An -v -tx1 got; else cat got; fi
  printf 'exit status %s\n' $status_of_get
}

# day_add TITLE FILE MESSAGE, in hex; what the file then is
day_add() {
  bytes "$3" >message
  day_run "$1" add "$2"
  if [ -e "$2" ]; then od -An -v -tx1 "$2"; else printf 'no file\n'; fi
}

# note LENGTH: a message of so many bytes, from 264 to 16,385 or more: its nonce is long
note() {
  bytes "01 82 14 81 59 $(printf %04x $(($1 - 7)))"
  head -c $(($1 - 7)) /dev/zero
}

mode() {
  ls -l "$1" | cut -c 1-10
}

one="$c 0000 01 00 0001 00000012"
three="$c $order 01 0000 0012 002a 01 00 0003 0000002b"
three_2="$c $order 01 00000000 00000012 0000002a 02 00 0003 0000002b"

day_checks() {
  bytes "01 00 0000 00000000" >empty
  bytes "$one" >one
  bytes "$three" >three
  bytes "02 00 0000 00000000" >empty_2
  bytes "$three_2" >three_2
  day_run "no messages" check empty
  day_run "one message" check one
  day_run "three messages" check three
  day_run "no messages, version 2" check empty_2
  day_run "three messages, version 2" check three_2

  bytes "" >file
  day_run "no bytes" check file
  bytes "00 0000 00000000" >file
  day_run "seven bytes" check file
  bytes "$c 0000 03 00 0001 00000012" >file
  day_run "another version" check file
  bytes "$c 0000 02 00 0001 00000012" >file
  day_run "version 2 with a table of version 1" check file
  bytes "$c 00000000 01 00 0001 00000012" >file
  day_run "version 1 with a table of version 2" check file
  bytes "$c 0000 01 01 0001 00000012" >file
  day_run "a second byte of the trailer" check file
  bytes "$c 0000 01 00 0002 00000012" >file
  day_run "one too many in the trailer" check file
  bytes "$c 0000 01 00 0001 00000011" >file
  day_run "the table's start one too low" check file
  bytes "$c 0000 01 00 0001 80000012" >file
  day_run "the table's start far away" check file
  bytes "01 01 00 0000 00000001" >file
  day_run "no messages and a start" check file
  bytes "01 0001 01 00 0001 00000001" >file
  day_run "the first entry of the table is not 0" check file
  bytes "01 01 0000 0000 01 00 0002 00000002" >file
  day_run "equal entries of the table" check file
  bytes "01 01 01 0000 0002 0001 01 00 0003 00000003" >file
  day_run "an entry of the table below the one before" check file
  bytes "01 01 0000 0002 01 00 0002 00000002" >file
  day_run "an entry of the table at its start" check file
  bytes "01 02 02 0000 0001 0002 01 00 0003 00000003" >file
  day_run "a message that is refused" check file
  bytes "01 82 0000 01 00 0001 00000002" >file
  day_run "a message that is cut" check file
  for command in 'get file 0' 'list file' 'search file 0' 'add file'; do
    # shellcheck disable=SC2086
    day_run "refused by ${command%% *}" $command
  done
  head -c 65528 /dev/zero >file
  bytes "01 00 0000 00000000" >>file
  day_run "65,536 bytes" check file
  { note 4097; bytes "0000 01 00 0001 00001001"; } >file
  day_run "a message of 4,097 bytes in version 1" check file
  { note 4097; bytes "00000000 02 00 0001 00001001"; } >file
  day_run "a message of 4,097 bytes in version 2" check file
  { note 16385; bytes "00000000 02 00 0001 00004001"; } >file
  day_run "a message of 16,385 bytes in version 2" check file
}

day_gets() {
  day_get "the first message" three 0
  day_get "the second message" three 1
  day_get "the last message" three 2
  day_get "no fourth message" three 3
  day_get "the second message, version 2" three_2 1
  day_get "no fourth message, version 2" three_2 3
  day_get "no such message by far" three 18446744073709551615
  day_get "no message in an empty file" empty 0
  for number in '' x 1x -1 +1 01 18446744073709551616; do
    day_get "the message '$number'" three "$number"
  done
}

day_lists() {
  day_run "references of one message" list one
  day_run "references of three messages" list three
  day_run "references of three messages, version 2" list three_2
  day_run "no references" list empty
  day_run "a search" search three -20
  day_run "a search in two messages" search three 65536
  day_run "a search in two messages, version 2" search three_2 65536
  day_run "a search for what is not there" search three 0
  # names, relative ones, a namespace reference, one without a text, the ends of numbers
  bytes "$names $named 0000 002f 01 00 0002 0000003f" >file
  bytes "01 82 14 84 f6 84 00 20 00 81 f93c00 83 1b7fffffffffffffff 20 00 84 3b7fffffffffffffff 6161 00 81 81 05" >message
  "$day" add file <message >/dev/null
  printf 'bodies=1\na=65536\na=1\nabcdefghijklmnopqrstuvwx=-9223372036854775808\n' >published
  printf '!a=-20\n!odm1=65536\n' >own
  day_run "names without lists" list file
  day_run "names by the published list" list file published
  day_run "names by both lists" list file published own
  : >empty_list
  day_run "names by the own list alone" list file empty_list own
  day_run "a search by both lists" search file 65536 published own
  day_run "a search by the published list" search file 65536 published
  day_run "a search without lists" search file 65536
  day_run "a search for the least number" search file -9223372036854775808 published own
  day_run "a search for the greatest number" search file 9223372036854775807 published own
  day_run "a search for a private number" search file -20 published own
  for number in '' x 1x +1 -0 007 -07 - 9223372036854775808 -9223372036854775809; do
    day_run "the namespace '$number'" search file "$number"
  done
  printf '!a=-20\nb=+1\n' >wrong
  day_run "a wrong line of the own list" list file published wrong
  day_run "a wrong line of the published list" list file wrong own
  day_run "a search by a wrong list" search file 0 published wrong
  day_run "a search by a wrong list for what is not there" search file 77 wrong
  printf 'no day' >wrong_day
  day_run "the file is refused before the list" list wrong_day wrong
  day_run "the file is refused before the list of a search" search wrong_day 0 wrong
}

day_adds() {
  rm -f file
  day_add "to a missing file, a message that is refused" file 02
  day_add "to a missing file, nothing" file ""
  day_add "to a missing file" file "$c"
  day_add "a second" file "$order"
  day_add "a message that is refused" file "01 82 14"
  day_add "a third" file 01
  cmp file three_2
  cp empty file
  day_add "version 1 stays" file "$c"
  day_add "the file is refused before the message" wrong_day 02
  cp three file
  note 4097 >message
  day_run "4,097 bytes to version 1" add file
  { bytes 02; head -c 20000 /dev/zero; } >message
  day_run "20,001 bytes to version 1" add file
  cmp file three
  cp three_2 file
  day_run "20,001 bytes to version 2" add file
  note 16385 >message
  day_run "16,385 bytes to version 2" add file
  cmp file three_2
  note 4097 >message
  day_run "4,097 bytes to version 2" add file
  note 16384 >message
  day_run "16,384 bytes to version 2" add file
  "$day" get file 4 | cmp - message
  cp empty file
  note 4096 >message
  for k in 0 1 2 3 4 5 6 7 8 9 10 11 12 13 14; do
    "$day" add file <message >added && printf 'added %s\n' $k | cmp - added
  done
  note 4056 >message
  day_run "one byte too many" add file
  note 4055 >message
  day_run "the last bytes" add file
  cp file full
  bytes 01 >message
  day_run "a full file" add file
  cmp file full
  wc -c <file
  day_run "a full file passes" check file
  note 4055 >message
  "$day" get file 15 | cmp - message

  # version 2 as long as it may be
  rm -f file
  note 16384 >message
  for k in 0 1 2 3 4 5 6 7 8 9 10 11 12 13 14 15 16 17 18 19 20 21 22 23 24 25 26 27 28 29 30 31 32 33 34 35 36 37 38 39 40 \
    41 42 43 44 45 46 47 48 49 50 51 52 53 54 55 56 57 58 59 60 61 62; do
    "$day" add file <message >added && printf 'added %s\n' $k | cmp - added
  done
  note 16121 >message
  day_run "version 2, one byte too many" add file
  note 16120 >message
  day_run "version 2, the last bytes" add file
  cp file full_2
  bytes 01 >message
  day_run "a full file of version 2" add file
  cmp file full_2
  wc -c <file
  day_run "a full file of version 2 passes" check file
  { cat full_2 && printf 0; } >file
  day_run "a byte more" check file

  # the mode, and a link
  rm -f file new
  cp one file
  chmod 640 file
  (umask 077 && day_run "the mode stays" add file)
  mode file
  (umask 027 && day_run "the mode of a new file" add new)
  mode new
  rm -rf folder link second file
  mkdir folder
  cp one folder/file
  ln -s folder/file link
  ln -s link second
  day_run "through two links" add second
  { [ -L link ] && [ -L second ] && "$day" check folder/file; } || printf 'a link is gone\n'
  : >folder/file.new
  day_run "through a link, beside another add" add link 2>&1 | sed "s|$day_made|HERE|"
  rm -f folder/file folder/file.new
  day_run "a link that leads nowhere" add link
  ls folder
  rm -f link second
  (cd folder && ln -s . here && cp ../message . && day_run "beside a link to a folder" add here/file && ls)
  rm -rf folder
}

day_upgrades() {
  cp three file
  day_run "a file is upgraded" upgrade file
  cmp file three_2
  day_run "one of version 2 is refused" upgrade file
  cmp file three_2
  cp empty file
  day_run "one without messages is upgraded" upgrade file
  cmp file empty_2
  cp full file
  day_run "a full file is upgraded" upgrade file
  wc -c <file
  note 16384 >message
  day_run "and takes bigger messages" add file
  bytes 01 >message
  day_run "it passes" check file
  for k in 0 7 15; do
    "$day" get full $k >got && "$day" get file $k | cmp - got
  done
  bytes "01 01 01 0000 0002 0001 01 00 0003 00000003" >wrong
  day_run "a bad table" upgrade wrong
  bytes "01 02 02 0000 0001 0002 01 00 0003 00000003" >wrong
  day_run "a message that is refused" upgrade wrong
  day_run "no day file" upgrade wrong_day
  rm -f file
  day_run "a missing file" upgrade file
  [ -e file ] || [ -e file.new ] && printf 'a file was made\n'
  cp three file
  chmod 640 file
  ln -s file link
  (umask 077 && day_run "the mode and a link stay" upgrade link)
  mode file
  [ -L link ] || printf 'the link is gone\n'
  rm -f link
  cp three file
  : >file.new
  day_run "an upgrade beside an add" upgrade file
  cmp file three
  rm -f file.new
}

day_errors() {
  for command in 'check none' 'get none 0' 'list none' 'search none 0' 'list three none' 'list three own none' \
    'search three 0 none' 'check .' 'list three .' 'add .' 'add none/file' 'add three/file' 'add /dev/null' 'check three/file' \
    'upgrade .' 'upgrade none/file' 'upgrade /dev/null'; do
    # shellcheck disable=SC2086
    day_run "gate day $command" $command
  done
  cp three file
  mkfifo pipe
  day_run "a pipe" add pipe
  rm -f pipe
  : >file.new
  day_run "beside another add" add file
  cmp file three
  rm -f file.new
  mkdir file.new
  day_run "beside a folder" add file
  rmdir file.new
  printf -- '-- standard input is a folder\n'
  "$day" add file <. 2>&1
  printf 'exit status %s\n' $?
  printf -- '-- no standard input\n'
  "$day" add file <&- 2>&1
  printf 'exit status %s\n' $?
  cmp file three
  printf -- '-- files may not have a byte\n'
  { (ulimit -f 0 && exec "$day" add file <message 2>&1); printf 'exit status %s\n' $?; } | cat
  cmp file three
  [ -e file.new ] && printf 'file.new was left\n'
  if [ -c /dev/full ]; then
    for command in 'check three' 'get three 0' 'list three' 'search three -20' 'check one' 'add file' 'get three 3' -h; do
      printf -- '-- a full device: %s\n' "$command"
      # shellcheck disable=SC2086
      "$day" $command 2>&1 >/dev/full <message
      printf 'exit status %s\n' $?
    done
    printf -- '-- no standard output\n'
    "$day" check three 2>&1 >&-
    printf 'exit status %s\n' $?
    printf -- '-- no standard output: add\n'
    "$day" add file 2>&1 <message >&-
    printf 'exit status %s\n' $?
    "$day" check file
    cp three file
    printf -- '-- a full device: upgrade file\n'
    "$day" upgrade file 2>&1 >/dev/full
    printf 'exit status %s\n' $?
    cmp file three_2
  fi
  day_run "no words"
  for command in -h --help 'check -h' 'search --help' check 'check one one' 'get one' 'get one 0 0' add 'add one one' upgrade 'upgrade one one' list \
    'list one own own own' search 'search one' 'search one 0 own own own' find 'find one'; do
    # shellcheck disable=SC2086
    day_run "the words $command" $command | sed '/^       gate day /d'
  done
}

relay_day() {
  day=$root/target/host/relay
  bytes "$row_65536 $row_20" >table
  : >list
  rm -f day
  bytes "$c" >message
  for title in "a day begins" "a day goes on"; do
    day_run "relay: $title" table 7 message list list day
  done
  day_run "relay: held back" table 8 message list list day
  bytes 02 >message
  day_run "relay: refused" table 7 message list list day
  bytes "$order" >message
  day_run "relay: from standard input" table 7 - list list day
  cp day before
  : >day.new
  day_run "relay: beside another add" table 7 message list list day
  rm day.new
  cmp day before
  for file in full full_2; do
    cp $file day
    day_run "relay: a full day" table 7 message list list day
    cmp day $file
  done
  cp message order
  note 5000 >message
  cp three day
  day_run "relay: too big for a day of version 1" table 7 message list list day
  cmp day three
  rm -f day
  day_run "relay: a big message" table 7 message list list day
  mv order message
  day_run "relay: no day file" table 7 message list list message
  day_run "relay: no folder" table 7 message list list none/day
  day_run "relay: too many" table 7 message list list day day
  if [ -c /dev/full ]; then
    printf -- '-- relay: a full device\n'
    "$day" table 7 message list list before 2>&1 >/dev/full
    printf 'exit status %s\n' $?
  fi
  "$day_made/gate_day" check before
}

# day_transcript PROGRAM FILE
day_transcript() {
  day=$1
  bytes 01 >message
  {
    day_checks
    day_gets
    day_lists
    day_adds
    day_upgrades
    day_errors
  } >"$2" 2>&1
}

# denied NAME ARGUMENT...: what is not allowed is said, of that file
denied() {
  of=$1
  shift
  $as "$day" "$@" <message >said 2>&1
  if [ $? != 2 ] || [ "$(cat said)" != "gate day: $of: Permission denied" ] || [ -e folder/file.new ]; then
    fail "gate day $* without permission: $(cat said)"
  fi
}

# As another user than root, who is allowed all.
day_permissions() {
  as=
  if [ "$(id -u)" = 0 ]; then
    as='setpriv --reuid=65534 --regid=65534 --clear-groups'
    if ! $as "$day" -h >/dev/null 2>&1; then
      printf 'host: day: permissions: skipped, this is root\n'
      return
    fi
  fi
  rm -rf folder
  mkdir folder
  cp three folder/file
  chmod 777 folder
  chmod 000 folder/file
  denied folder/file check folder/file
  denied folder/file list folder/file
  denied folder/file add folder/file
  denied folder/file upgrade folder/file
  chmod 444 folder/file
  denied folder/file add folder/file
  denied folder/file upgrade folder/file
  chmod 666 folder/file
  chmod 555 folder
  denied folder/file.new add folder/file
  chmod 333 folder
  denied folder add folder/file
  chmod 777 folder
  cmp folder/file three || fail 'gate day without permission changed the file'
  if [ -n "$as" ]; then
    # Root's file becomes that of who adds to it; by root it stays so.
    for who in "$as" ""; do
      $who "$day" add folder/file <message >/dev/null
      case $(ls -ln folder/file) in
      -rw-rw-rw-*\ 65534\ 65534\ *) ;;
      *) fail "the mode or the owner: $(ls -ln folder/file)" ;;
      esac
    done
  fi
  printf 'host: day: permissions: as they should be\n'
}

# gate_day STATUS ARGUMENT...: by the script, reached by a link
gate_day() {
  wanted=$1
  shift
  ./linked day "$@" >said 2>&1
  [ $? = "$wanted" ] || fail "gate day $* does not end with $wanted: $(cat said)"
}

day_by_script() {
  if [ "$SURFBODKIN_ARCHIVE" != "$root/target/staticlib/libsurfbodkin.a" ]; then
    printf 'host: day by the script gate: skipped, another archive\n'
    return
  fi
  rm -f "$root/target/host/gate_day"
  ln -s "$root/gate" linked
  gate_day 0 -h
  [ ! -e "$root/target/host/gate_day" ] || fail 'gate day -h builds it'
  gate_day 0 check three
  [ "$(cat said)" = 'passes 3' ] || fail "gate day check says: $(cat said)"
  touch -t 200001010000 "$root/target/host/gate_day"
  gate_day 1 get three 3
  [ -n "$(find "$root/target/host/gate_day" -newer three)" ] || fail 'gate day is not built again'
  cp -p "$root/target/host/gate_day" before
  gate_day 2 check none
  gate_day 2
  [ -z "$(find "$root/target/host/gate_day" -newer before)" ] || fail 'gate day is built again for nothing'
  rm -f linked # rt ci takes no tree with a link in it
  printf 'host: day by the script gate: as it should be\n'
}

# state_of_file: which of the files old, new, newer and none it is
state_of_file() {
  if [ ! -e file ]; then
    [ -e old ] || printf old
  elif [ -e old ] && cmp -s file old; then
    printf old
  elif cmp -s file new; then
    printf new
  elif cmp -s file newer; then
    printf newer
  fi
}

# after_kill TITLE: the file is whole, and the work ($work, add or upgrade) can be done again
after_kill() {
  state=$(state_of_file)
  case $state in
  old) olds=$((olds + 1)) ;;
  new) news=$((news + 1)) ;;
  *)
    fail "$1: the file is neither the old nor the new one"
    return
    ;;
  esac
  if [ -e file ]; then
    case $("$day" check file) in
    passes*) ;;
    *) fail "$1: the file does not pass" ;;
    esac
  fi
  if [ -e file.new ]; then
    left=$((left + 1))
    "$day" $work file <message >said 2>&1
    if [ $? != 2 ] || ! grep -q '^gate day: file.new: is there already: ' said || [ "$(state_of_file)" != "$state" ]; then
      fail "$1: beside what it left $work says: $(cat said)"
    fi
    rm -f file.new
  fi
  case $work-$state in
  upgrade-new) "$day" upgrade file >said 2>&1 || [ "$(cat said)-$(state_of_file)" = 'refused 20 0-new' ] ;;
  *-old) "$day" $work file <message >said 2>&1 && [ "$(state_of_file)" = new ] ;;
  *) "$day" $work file <message >said 2>&1 && [ "$(state_of_file)" = newer ] ;;
  esac || fail "$1: $work does not work again"
}

restore() {
  rm -f file file.new
  [ ! -e old ] || cp old file
}

# With the files old (or none), new and newer, and the work that makes each of the one before.
day_kills() {
  work=$1
  olds=0 news=0 left=0 calls=0 errors=0
  if [ -n "$strace" ]; then
    restore
    strace -o trace "$day" "$work" file <message >said 2>&1
    # Each call by its name and how often it has been made, but the first, by which strace
    # itself starts the program. Errors are given to those that the program makes, from
    # its first sigaction to the end; brk is no call that fails like others.
    awk -F'(' '/^[a-z]/ { n[$1]++ }
      /^rt_sigaction/ { own = 1 }
      /^[a-z]/ && NR > 1 { print $1, n[$1], own && $1 != "brk" && $1 != "exit_group" }' trace >calls
    while read -r call time own; do
      calls=$((calls + 1))
      restore
      strace -o /dev/null -e "inject=$call:signal=KILL:when=$time" "$day" "$work" file <message >said 2>&1
      [ $? = 137 ] || fail "$work was not killed at $call $time"
      after_kill "$work killed at $call $time"
      [ "$own" = 1 ] || continue
      errors=$((errors + 1))
      restore
      strace -o /dev/null -e "inject=$call:error=EIO:when=$time" "$day" "$work" file <message >said 2>error
      case $call-$?-$(state_of_file)-$(cat said) in
      openat-0-* | read-0-* | write-0-* | fsync-0-* | fchmod-0-* | rename-0-*) false ;;
      *-0-new-added\ [01] | *-0-new-upgraded\ 1) [ ! -s error ] ;;
      *-2-old-) grep -q '^gate day: [a-z. ]*: Input/output error$' error ;;
      fsync-2-new-) grep -Eq '^gate day: \.: Input/output error: (the message|version 2) stands in file, but may be lost with the power$' error ;;
      write-2-new-) grep -Eq '^gate day: standard output: Input/output error: the (message was added as number [01]|file was upgraded)$' error ;;
      *) false ;;
      esac && [ ! -e file.new ] || fail "$work with an error of $call $time: $(state_of_file) $(cat said error)"
    done <calls
    printf 'host: day: %s killed at each of %s system calls: %s times the old file, %s the new one, %s times file.new left; %s errors as they should be\n' \
      "$work" $calls $olds $news $left $errors
  else
    k=0
    while [ $k -lt 250 ]; do
      k=$((k + 1))
      restore
      "$day" "$work" file <message >/dev/null 2>&1 &
      sleep "0.00$((k % 5))$((k * 7 % 10))"
      kill -9 $! 2>/dev/null
      wait $! 2>/dev/null
      after_kill "$work killed, time $k"
    done
    printf 'host: day: %s killed %s times at random: %s times the old file, %s the new one, %s times file.new left\n' \
      "$work" $k $olds $news $left
  fi
  [ $olds -gt 0 ] && [ $news -gt 0 ] || fail 'the kills were all before or all after the renaming'
}

# many HOW_MANY TRIES: so many adds at once, each tried so often
many() {
  rm -f file file.new said.* tried.*
  k=0
  while [ $k -lt "$1" ]; do
    bytes "01 82 14 81 19 01 $(printf %02x $k)" >"message.$k"
    k=$((k + 1))
  done
  k=0
  while [ $k -lt "$1" ]; do
    (
      tries=0 answer=2
      while [ $answer = 2 ] && [ $tries -lt "$2" ]; do
        tries=$((tries + 1))
        "$day" add file <"message.$k" >"said.$k" 2>&1
        answer=$?
      done
      printf '%s\n' $answer >"tried.$k"
    ) &
    k=$((k + 1))
  done
  wait
  k=0 added=0
  while [ $k -lt "$1" ]; do
    case $(cat "tried.$k")-$(cat "said.$k") in
    0-added\ *)
      added=$((added + 1))
      "$day" get file "$(sed 's/added //' "said.$k")" | cmp -s - "message.$k" || fail "message $k was lost: $(cat "said.$k")"
      ;;
    2-'gate day: file.new: is there already: '*) ;;
    *) fail "one of many adds: status $(cat "tried.$k"), $(cat "said.$k")" ;;
    esac
    k=$((k + 1))
  done
  [ "$("$day" check file)" = "passes $added" ] || fail "many adds: $added were added, and the file: $("$day" check file)"
  [ $added -gt 0 ] || fail 'many adds: none was added'
  [ "$2" = 1 ] || [ $added = "$1" ] || fail "many adds: only $added of $1 were added"
  [ ! -e file.new ] || fail 'many adds: file.new was left'
  printf 'host: day: %s adds at once: %s added\n' "$1" $added
}

day_tests() {
  day_transcript "$day_made/gate_day" day.out
  sed '/^-- relay/,$d' "$here/day.expected" >day.part
  expected=day.part
  if [ -x "$root/target/host/relay" ]; then
    # How many rows were compared is for relay.expected.
    relay_day 2>&1 | sed 's/, rows compared [0-9]*//' >>day.out
    expected=$here/day.expected
  fi
  if diff "$expected" day.out; then
    printf 'host: day: %s runs as stored\n' "$(grep -c '^--' day.out)"
  else
    fail 'gate day wrote something else than day.expected'
  fi
  if $CC $strict -g -O1 -fsanitize=address,undefined -fno-sanitize-recover=undefined -o gate_day-address \
    "$root/host/day.c" "$root/host/program.c" "$root/host/day_file.c" "$SURFBODKIN_ARCHIVE" 2>/dev/null; then
    day_transcript "$day_made/gate_day-address" address.out
    if diff day.part address.out; then
      printf 'host: day with the sanitizers: the same\n'
    else
      fail 'gate day with the sanitizers wrote something else than day.expected'
    fi
  else
    printf 'host: day with the sanitizers: skipped, not here\n'
  fi

  day=$day_made/gate_day
  bytes "$three" >three
  bytes "$c" >message
  day_permissions
  day_by_script
  strace=
  strace -o /dev/null -e inject=close:signal=KILL:when=1 true 2>/dev/null
  if [ $? = 137 ]; then
    strace=strace
  else
    printf 'host: day: add at each system call: skipped, no strace here that works; it is killed at random\n'
  fi
  bytes "$c" >message
  rm -f old new newer file.new
  "$day" add new <message >/dev/null
  cp new newer
  "$day" add newer <message >/dev/null
  day_kills add
  mv new old
  mv newer new
  cp new newer
  "$day" add newer <message >/dev/null
  day_kills add
  bytes "$one" >old
  cp old new
  "$day" upgrade new >/dev/null
  day_kills upgrade
  many 50 1
  many 20 5000
}

missing=$(missing day_check day_find day_add day_search day_upgrade name_number)
if [ -n "$missing" ]; then
  printf 'host: day: skipped, not in the archive:%s\n' "$missing"
  for source in host/day.c host/program.c host/day_file.c; do
    $CC $strict -fsyntax-only $source || fail "$source is not good C"
  done
else
  rm -rf "$day_made"
  mkdir -p "$day_made"
  if $CC $strict -O2 -o "$day_made/gate_day" host/day.c host/program.c host/day_file.c "$SURFBODKIN_ARCHIVE"; then
    cd "$day_made" && day_tests
    cd "$root" || exit 1
  else
    fail 'day.c does not build'
  fi
fi
