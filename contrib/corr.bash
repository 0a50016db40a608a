# bash completion for corr and the tools next to it: source this file, or lay it where bash-completion looks. Where a function has nothing to
# offer, bash completes file names by itself (`-o default`), after a redirection too.

# _corr_offer WORD..: those of these words that begin with what is being typed.
_corr_offer() {
  local IFS=$' \t\n'
  mapfile -t COMPREPLY < <(compgen -W "$*" -- "$word")
}

# _corr_options OPTION..: those of these options that aren't given yet.
_corr_options() {
  local option given left=()
  for option in "$@"; do
    for given in "${COMP_WORDS[@]:1:COMP_CWORD-1}"; do
      [ "$given" = "$option" ] && continue 2
    done
    left+=("$option")
  done
  _corr_offer "${left[@]}"
}

# _corr_values: completes the value of an option, if that is what is being typed. Of some values nothing is known: then nothing is offered.
_corr_values() {
  case $before in
    --notion) _corr_offer efce efcce nfcce ;;
    --kind) _corr_offer public dilemma chain ;;
    --labels) _corr_offer exact decimal number none ;;
    --format) _corr_offer svg pdf ;;
    --game | --gains) ;;
    --weights | --n | --seed | --corner | --byte | --title | --width | --font-size) compopt +o default 2> /dev/null || true ;;
    *) return 1 ;;
  esac
}

# _corr_begin: what is being typed as `word`, what comes before it as `before`. Bash takes `--notion=efce` for three words.
_corr_begin() {
  word=${COMP_WORDS[COMP_CWORD]}
  before=${COMP_WORDS[COMP_CWORD - 1]}
  COMPREPLY=()
  if [ "$word" = = ]; then
    word=
  elif [ "$before" = = ] && [ "$COMP_CWORD" -gt 1 ]; then
    before=${COMP_WORDS[COMP_CWORD - 2]}
  fi
}

_corr() {
  local word before
  _corr_begin
  if [ "$COMP_CWORD" -eq 1 ]; then
    _corr_offer solve check gen work help --help --version
    return
  fi
  _corr_values && return
  case ${COMP_WORDS[1]},$before,$word in
    *,'<',* | *,'>',*) ;;
    help,help,*) _corr_offer solve check gen work ;;
    solve,*,-*) _corr_options --notion --help ;;
    check,*,-*) _corr_options --help ;;
    gen,*) _corr_options --kind --n --seed --help ;;
    work,*) _corr_options --kind --n --seed --notion --help ;;
  esac
}

_corr_tool() {
  local word before
  _corr_begin
  _corr_values && return
  [[ $word == -* ]] || return
  case ${COMP_WORDS[0]##*/} in
    corr-plot) _corr_options --game --notion --title --stretch --labels --payoffs --no-legend --width --font-size --format --help ;;
    corr-names) _corr_options --game --notion --corner --help ;;
    corr-welfare) _corr_options --game --notion --help ;;
    corr-where) _corr_options --byte --help ;;
    corr-lint) _corr_options --help ;;
    corr-page) _corr_options --game --notion --help ;;
    corr-plans) _corr_options --notion --report --help ;;
    corr-at) _corr_options --weights --gains --report --table --notion --help ;;
  esac
}

complete -o default -F _corr corr
complete -o default -F _corr_tool corr-plot corr-names corr-welfare corr-where corr-lint corr-page corr-plans corr-at
