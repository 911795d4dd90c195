# What bash offers behind the word shmdbg. To use it: source completions/shmdbg.bash

_shmdbg() {
  local word=${COMP_WORDS[COMP_CWORD]} before=${COMP_WORDS[COMP_CWORD - 1]} offered=
  # Of --sites=4 the equals sign is a word of its own.
  [ "$word" != = ] || word=
  [ "$before" != = ] || before=${COMP_WORDS[COMP_CWORD - 2]}
  case $COMP_CWORD:${COMP_WORDS[1]} in
    1:*) offered='replay run simulate prompt draw site audit journal shorten help -h --help -V --version' ;;
    2:help) offered='replay run simulate prompt draw site audit journal shorten help' ;;
    *:replay)
      mapfile -t COMPREPLY < <(compgen -W '-h --help' -- "$word"; compgen -f -- "$word")
      compopt -o filenames 2> /dev/null
      return
      ;;
    *:prompt) offered='-h --help' ;;
    *:run)
      case $before in
        --sites) offered='1 2 3 4 5 6 7 8 9 10 11 12 13 14 15 16' ;;
        --seed) ;;
        --log)
          mapfile -t COMPREPLY < <(compgen -d -- "$word")
          compopt -o filenames 2> /dev/null
          return
          ;;
        *) offered='--sites --seed --summary --log -h --help' ;;
      esac
      ;;
    *:simulate)
      case $before in
        --sites) offered='1 2 3 4 5 6 7 8 9 10 11 12 13 14 15 16' ;;
        --seed | --runs | --lose | --repeat | --restart) ;;
        --keep)
          mapfile -t COMPREPLY < <(compgen -d -- "$word")
          compopt -o filenames 2> /dev/null
          return
          ;;
        *) offered='--sites --seed --runs --lose --repeat --restart --keep -h --help' ;;
      esac
      ;;
    *:draw)
      [ "$before" != --page ] || return
      mapfile -t COMPREPLY < <(compgen -W '--page --steps --notes -h --help' -- "$word"; compgen -f -- "$word")
      compopt -o filenames 2> /dev/null
      return
      ;;
    *:site)
      case $before in
        --sites) offered='1 2 3 4 5 6 7 8 9 10 11 12 13 14 15 16' ;;
        --me) offered='0 1 2 3 4 5 6 7 8 9 10 11 12 13 14 15' ;;
        --preset | --shorten-at | --cluster) ;;
        --journal | --key)
          mapfile -t COMPREPLY < <(compgen -f -- "$word")
          compopt -o filenames 2> /dev/null
          return
          ;;
        *) offered='--sites --me --preset --journal --new --shorten-at --forget --cluster --key -h --help' ;;
      esac
      ;;
    *:journal | *:shorten)
      mapfile -t COMPREPLY < <(compgen -W '-h --help' -- "$word"; compgen -f -- "$word")
      compopt -o filenames 2> /dev/null
      return
      ;;
    *:audit)
      case $before in
        --sites) offered='1 2 3 4 5 6 7 8 9 10 11 12 13 14 15 16' ;;
        *)
          mapfile -t COMPREPLY < <(compgen -W '--sites -h --help' -- "$word"; compgen -f -- "$word")
          compopt -o filenames 2> /dev/null
          return
          ;;
      esac
      ;;
  esac
  mapfile -t COMPREPLY < <(compgen -W "$offered" -- "$word")
}

complete -F _shmdbg shmdbg
