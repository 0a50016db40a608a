# The front door of `corr`, which the launcher, `preview` and the installed command source. It gives help, opens files by their names, and
# says what a status above 63 means. The program itself knows no files: it reads standard input, and gets its own words as they are.
usage="usage: corr solve|check|gen|work [--notion efce|efcce|nfcce] [--kind public|dilemma|chain] [--n N] [--seed N]"

say() {
  echo "corr: $1" >&2
}

help_all() {
  cat << 'END'
usage: corr solve [--notion NOTION] [GAME]
       corr check [REPORT GAME]
       corr gen --kind KIND --n N [--seed SEED]
       corr work --kind KIND --n N [--seed SEED] [--notion NOTION]
       corr help [COMMAND]
       corr --version

Finds the expected payoffs that a mediator can reach in a two-player extensive
game, exactly, as a polygon for each notion of correlated equilibrium.

  solve   reads a game in Gambit's EFG format and prints its report
  check   reads a report and its game, and says whether the report is true
  gen     prints the file of a generated game
  work    solves a generated game and prints a summary
  help    says more about a command

examples:
  corr solve chicken.efg > report
  corr check report chicken.efg

'man corr' shows the formats, the refusals and the limits.
END
}

help_solve() {
  cat << 'END'
usage: corr solve [--notion NOTION] [GAME]

Prints the report of a game: for each notion the corners of its polygon, each
with pairs of plans that reach it, and the sides with their multipliers.
GAME is a file in Gambit's EFG format. Standard input is read where it is '-'
or left out.

  --notion NOTION   efce, efcce or nfcce: this notion alone

Ends with 0, with 2 where the game is refused, and with 3 where a notion is too
wide to be answered. corr-where shows the place of a refusal.

examples:
  corr solve chicken.efg
  corr solve --notion efce chicken.efg > report
  corr solve < chicken.efg
END
}

help_check() {
  cat << 'END'
usage: corr check [REPORT GAME]

Holds a report against a game, and prints 'yes' or the first thing that is
false. One of the two may be '-', which is standard input. Where both are left
out, standard input is the report with the game right after it.

Ends with 0 for yes, with 1 for no, with 2 where the report or the game is
refused, and with 3 where the report is true but some notion is too wide.

examples:
  corr check report chicken.efg
  corr solve chicken.efg | corr check - chicken.efg
  cat report chicken.efg | corr check
END
}

help_gen() {
  cat << 'END'
usage: corr gen --kind KIND --n N [--seed SEED]

Prints the file of a generated game.

  --kind KIND   public, dilemma or chain
  --n N         the game's size, from 1
  --seed SEED   which of the games of this kind and size; 0 where left out

Ends with 0, and with 2 where the size is above the greatest of its kind.

example:
  corr gen --kind dilemma --n 16 --seed 7 > dilemma.efg
END
}

help_work() {
  cat << 'END'
usage: corr work --kind KIND --n N [--seed SEED] [--notion NOTION]

Solves the game that 'corr gen' makes from the same words, and prints a summary
in place of its report.

  --kind KIND       public, dilemma or chain
  --n N             the game's size, from 1
  --seed SEED       which of the games of this kind and size; 0 where left out
  --notion NOTION   efce, efcce or nfcce: this notion alone

Ends with 0, with 2 where the size is above the greatest of its kind, and with
3 where a notion is too wide to be answered.

example:
  corr work --kind chain --n 10 --notion nfcce
END
}

stop_missing() {
  say "the file $1 is missing"
  exit 69
}

stop_unread() {
  say "$1 could not be read"
  exit 72
}

stop_unwritten() {
  say "standard output could not be written"
  exit 74
}

# show COMMAND WORD..: prints what the command says, and ends.
show() {
  "$@" 2> /dev/null && exit 0
  stop_unwritten
}

# version CHANGELOG: the version that its first heading names.
version() {
  local line
  while read -r line; do
    case $line in
      '## '*)
        line=${line#'## '}
        echo "corr ${line%% *}"
        return
        ;;
    esac
  done < "$1"
  return 1
}

# answer_alone CHANGELOG WORD..: answers what needs no program, help and the version, and ends. Else it returns.
answer_alone() {
  local changelog=$1 word
  shift
  case $*,$# in
    help,1 | --help,1 | -h,1 | "help help,2") show help_all ;;
    --version,1)
      [ -r "$changelog" ] || stop_missing "$changelog"
      show version "$changelog"
      ;;
    "help solve,2" | "help check,2" | "help gen,2" | "help work,2") show "help_$2" ;;
  esac
  case ${1-} in
    solve | check | gen | work) ;;
    *) return 0 ;;
  esac
  for word in "${@:2}"; do
    case $word in
      --help | -h) show "help_$1" ;;
    esac
  done
}

# refuse_words REASON: what words without a meaning get.
refuse_words() {
  say "$1"
  echo "$usage" 2> /dev/null || stop_unwritten
  exit 64
}

# want_command WORD..: refuses words that don't begin with a command.
want_command() {
  case ${1-} in
    solve | check | gen | work) ;;
    '') refuse_words "a command is missing; 'corr help' lists them" ;;
    help) refuse_words "there is no help on '${*:2}'; 'corr help' lists the commands" ;;
    -*) refuse_words "the command comes first; 'corr help' lists them" ;;
    *)
      [ ! -f "$1" ] || refuse_words "a command is missing before the file: corr solve $1"
      refuse_words "there is no command '$1'; 'corr help' lists them"
      ;;
  esac
}

# read_words WORD..: puts the program's words into `words`, an option and its value apart, and all else into `files`.
read_words() {
  words=("$1")
  files=()
  shift
  while [ $# -gt 0 ]; do
    case $1 in
      --)
        files+=("${@:2}")
        break
        ;;
      --*=*) words+=("${1%%=*}" "${1#*=}") ;;
      --*)
        words+=("${@:1:2}")
        [ $# -eq 1 ] || shift
        ;;
      *) files+=("$1") ;;
    esac
    shift
  done
}

# want_files: refuses names of no file, and files of a number that the command doesn't take.
want_files() {
  local file
  for file in "${files[@]}"; do
    [ "$file" = - ] || [ -e "$file" ] || refuse_words "there is no file '$file'; 'corr help $words' says what $words takes"
  done
  case $words,${#files[@]},${files[*]} in
    check,2,'- -') refuse_words "standard input can be read only once: give the report or the game as a file" ;;
    solve,[01],* | check,[02],* | gen,0,* | work,0,*) ;;
    solve,*) refuse_words "solve takes one game, not ${#files[@]} files" ;;
    check,*) refuse_words "check takes a report and its game: corr check report game.efg" ;;
    *) refuse_words "$words reads no file, and '${files[0]}' is none of its options" ;;
  esac
}

# prepare WORD..: refuses words without a meaning and files that aren't there.
prepare() {
  want_command "$@"
  read_words "$@"
  want_files
}

# open_files: makes what the files hold standard input. Two of them are joined by a `cat`, whose process is `joined`.
open_files() {
  local file
  for file in "${files[@]}"; do
    [ ! -d "$file" ] || stop_unread "the folder '$file'"
    [ "$file" = - ] || [ -r "$file" ] || stop_unread "the file '$file'"
  done
  case ${files[*]} in
    '' | -) return 0 ;;
  esac
  if [ ${#files[@]} -eq 1 ]; then
    exec < "${files[0]}"
  else
    exec {given}<&0
    exec < <(exec cat -- "${files[@]}" <&"$given" 2> /dev/null) || stop_unread "what ${files[*]} hold"
    joined=$!
    exec {given}<&-
  fi
}

# say_what_is_awaited: at a terminal, which shows nothing while the program waits for its input.
say_what_is_awaited() {
  [ -t 0 ] || return 0
  case $words in
    solve) say "reads a game from the terminal, up to Ctrl-D; 'corr solve game.efg' reads a file" ;;
    check) say "reads a report and its game from the terminal, up to Ctrl-D; 'corr check report game.efg' reads files" ;;
  esac
}

# show_time: tells from the fifth second on how long the run has taken, until its input has a byte or ends. Then it takes the line away, and
# hands on what comes.
show_time() {
  local first
  trap '' INT
  SECONDS=0
  while true; do
    IFS= read -r -N 1 -t $((SECONDS < 5 ? 5 - SECONDS : 1)) first
    # A byte that comes as the time is over is kept.
    [ $? -gt 128 ] && [ -z "$first" ] || break
    printf '\rcorr: running for %d min %02d s' $((SECONDS / 60)) $((SECONDS % 60)) >&2
  done
  [ $SECONDS -lt 5 ] || printf '\r%-40s\r' '' >&2
  printf %s "$first"
  exec cat
}

# start_clock: where standard error is a terminal. The clock reads from `life`, which ends with the program. What the program prints at a
# terminal goes through it, so that no time stands within the text.
start_clock() {
  if [ -t 1 ]; then
    exec {life}> >(show_time)
    clock=$!
    exec {printed}>&"$life"
  else
    exec {life}> >(show_time > /dev/null)
    clock=$!
  fi
}

# run COMMAND WORD..: runs it, and puts its status into `status`. Signals are handed on to it. The shell's own line on a command that was
# killed isn't wanted.
run() {
  local name child handed printed life clock screen
  exec {printed}>&1
  [ ! -t 2 ] || start_clock
  exec {screen}>&2 2> /dev/null
  (trap - INT QUIT && exec "$@" >&"$printed" 2>&"$screen") <&0 &
  child=$!
  for name in INT TERM HUP; do
    trap "handed=1; kill -s $name $child" "$name"
  done
  exec {printed}>&-
  [ -z "${life-}" ] || exec {life}>&-
  while true; do
    handed=
    wait "$child"
    status=$?
    # A signal ends the waiting, and mostly the program too.
    [ -n "$handed" ] && kill -0 "$child" || break
  done
  [ -z "${clock-}" ] || wait "$clock"
  trap - INT TERM HUP
  exec 2>&"$screen" {screen}>&-
}

# explain INPUT: says what a status means that would else be read by nobody.
explain() {
  case $status in
    64) say "'corr help $words' says which words it takes" ;;
    70) say "there was not enough memory" ;;
    71) say "the system gave the program no words" ;;
    72) stop_unread "$1" ;;
    74) stop_unwritten ;;
  esac
}

# want_streams: a stream that is closed can't be written or, like a folder, can't be read.
want_streams() {
  : 3>&2 || exec 2> /dev/null
  { : 3>&1; } 2> /dev/null || stop_unwritten
  { : 3<&0; } 2> /dev/null || exec < /
}

# enter PROGRAM: runs the program on what `prepare` found, and ends as it ends, by its signal too. Where this is killed, so is the program.
enter() {
  local hold=() input="standard input"
  [ -x "$1" ] || stop_missing "$1"
  ! type -P setpriv > /dev/null || hold=(setpriv --pdeathsig KILL)
  want_streams
  open_files
  say_what_is_awaited
  run "${hold[@]}" "$1" "${words[@]}"
  if [ -n "${joined-}" ]; then
    exec < /dev/null
    wait "$joined"
    [ $? -ne 1 ] || status=72
  fi
  [ ${#files[@]} -eq 0 ] || [ "${files[*]}" = - ] || input="what ${files[*]} holds"
  explain "$input"
  if [ "$status" -gt 128 ]; then
    ulimit -c 0
    kill -s $((status - 128)) $$
  fi
  exit "$status"
}
