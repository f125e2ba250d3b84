# Completions of wanda and its companions for bash. Other commands come by the last part of their names, as `wanda all`.

# The companions that lie beside the command.
_wanda_companions() {
  local file folder
  file=$(type -P -- "$1") && folder=$(dirname "$(readlink -f "$file")") || return
  for file in "$folder"/wanda-*; do
    [ -x "$file" ] && [[ $file != *-watched && $file != *-launch ]] && printf '%s\n' "${file##*/wanda-}"
  done
}

# Files whose names end in one of the endings, and folders.
_wanda_files() {
  local ending
  compopt -o filenames 2> /dev/null
  mapfile -t COMPREPLY < <(compgen -d -- "$1"; for ending in "${@:2}"; do compgen -f -X "!*.$ending" -- "$1"; done)
}

# One of the words.
_wanda_words() {
  mapfile -t COMPREPLY < <(compgen -W "$2" -- "$1")
}

# How many words before the current one are no options and no values of options, from the word number $1 on.
_wanda_place() {
  local at=$1 place=0
  while [ "$at" -lt "$COMP_CWORD" ]; do
    case ${COMP_WORDS[at]} in
      --tries | --depth | --visited | --steps | --jobs | --seconds | --out | --gate | --engine | --sshlogin | --at)
        at=$((at + 1)) ;;
      -*) ;;
      *) place=$((place + 1)) ;;
    esac
    at=$((at + 1))
  done
  echo "$place"
}

_wanda_command() {
  local current=$1 place options=
  place=$(_wanda_place 2)
  case ${COMP_WORDS[1]} in
    prove) options='--tries --depth --visited' ;;
    refute) options=--tries ;;
    reduce) options=--steps ;;
  esac
  case ${COMP_WORDS[1]}:$place:$current in
    *:-*) _wanda_words "$current" "$options" ;;
    check:1:* | upgrade:1:*) _wanda_files "$current" cert found ;;
    prove:0:* | check:0:* | show:0:* | reduce:0:* | refute:0:* | upgrade:0:*) _wanda_files "$current" afs ;;
  esac
}

_wanda_companion() {
  local name=$1 current=$2 first=$3 place
  place=$(_wanda_place "$first")
  case $name:$current in
    explain:-*) _wanda_words "$current" '--lint --graph --help --version' ;;
    all:-*)
      _wanda_words "$current" '--hunt --jobs --seconds --out --proved --one --engine --sshlogin --at --help --version' ;;
    hunt:-*) _wanda_words "$current" '--work --out --stats --help --version' ;;
    release:-*) _wanda_words "$current" '--gate --help --version' ;;
    build:-*) _wanda_words "$current" '--unproved --help --version' ;;
    test:-*) _wanda_words "$current" '--no-gate --list --help --version' ;;
    fun:-*)
      _wanda_words "$current" '--out --prove --table --json --explain --hunt --jobs --seconds --all-instances
        --no-conditions --no-copies --no-patterns --no-unfold --help' ;;
    *:-*) _wanda_words "$current" '--help --version' ;;
    explain:*) if [ "$place" = 0 ]; then _wanda_files "$current" afs; else _wanda_files "$current" cert found; fi ;;
    hunt:* | page:*) _wanda_files "$current" afs ;;
    fun:*) _wanda_files "$current" hs ;;
    all:* | release:*) _wanda_files "$current" ;;
    build:*) _wanda_words "$current" 'wanda explain hunt' ;;
  esac
}

_wanda() {
  local current=${COMP_WORDS[COMP_CWORD]} name=${COMP_WORDS[0]##*/}
  local commands='prove check show reduce refute upgrade gen'
  COMPREPLY=()
  case ${COMP_WORDS[COMP_CWORD - 1]} in
    --tries | --depth | --visited | --steps | --jobs | --seconds | --sshlogin | --at) return ;;
    --engine) _wanda_words "$current" 'threads parallel'; return ;;
    --gate) _wanda_files "$current" log txt; return ;;
    --out) _wanda_files "$current" afs; return ;;
  esac
  if [ "$name" != wanda ]; then
    _wanda_companion "${name#wanda-}" "$current" 1
  elif [ "$COMP_CWORD" = 1 ]; then
    _wanda_words "$current" "$commands $(_wanda_companions "${COMP_WORDS[0]}") --help --version"
  else
    case ${COMP_WORDS[1]} in
      prove | check | show | reduce | refute | upgrade | gen) _wanda_command "$current" ;;
      *) _wanda_companion "${COMP_WORDS[1]}" "$current" 2 ;;
    esac
  fi
}

complete -F _wanda wanda wanda-explain wanda-all wanda-hunt wanda-fun wanda-page wanda-build wanda-release wanda-test
