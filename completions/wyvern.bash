# Completion of wyvern in bash: source this file, or put it into /usr/share/bash-completion/completions/wyvern.
_wyvern() {
  local now=${COMP_WORDS[COMP_CWORD]} before=${COMP_WORDS[COMP_CWORD - 1]} command='' word
  COMPREPLY=()
  for word in "${COMP_WORDS[@]:1:COMP_CWORD-1}"; do
    case $word in check | authority | run | trace | sample | format | policy | observe | certify | recheck) command=$word && break ;; esac
  done
  case $before in --steps | --depth | --folder) return ;; esac
  if [[ $now == -* ]]; then
    mapfile -t COMPREPLY < <(compgen -W '--steps --depth --folder' -- "$now")
  elif [ -z "$command" ]; then
    mapfile -t COMPREPLY < <(compgen -W 'check authority run trace sample format policy observe certify recheck' -- "$now")
  elif [ "$before" = recheck ]; then
    compopt -o filenames 2>/dev/null
    mapfile -t COMPREPLY < <(compgen -f -- "$now")
  elif [ "$command" != sample ]; then
    compopt -o filenames 2>/dev/null
    mapfile -t COMPREPLY < <(compgen -f -X '!*.wy' -- "$now"; [ "$command" != policy ] || compgen -f -X '!*.pol' -- "$now"; compgen -d -- "$now")
  fi
}
complete -F _wyvern wyvern
