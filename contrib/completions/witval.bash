# Completion for bash of witval, witval-view and witval-task: modes, options, files.
_witval() {
  local word=${COMP_WORDS[COMP_CWORD]} before=${COMP_WORDS[COMP_CWORD - 1]} command=${COMP_WORDS[0]##*/} words
  case $before in
    --program | --property | --witness | --certificate | --values | --list) COMPREPLY=($(compgen -f -- "$word")); return ;;
    --data-model | --model) COMPREPLY=($(compgen -W 'ILP32 LP64' -- "$word")); return ;;
    --colour) COMPREPLY=($(compgen -W 'auto always never' -- "$word")); return ;;
    --language) COMPREPLY=($(compgen -W 'C' -- "$word")); return ;;
    --steps | --conflicts | --number | --uuid | --time | --dimacs | --lrat | --width) return ;;
  esac
  words='--program --property --witness --steps --conflicts --json'
  if [ "$command ${COMP_WORDS[1]}" = 'witval view' ] && [ "$COMP_CWORD" -gt 1 ]; then command=witval-view; fi
  case $command in
    witval-view) words+=' --list --sarif --html --colour --width --counts --certificate --manifest --dimacs --lrat --help --version validate' ;;
    witval-task) words+=' --data-model --language validate view' ;;
    *) words+=' --bound --number --certificate --values --model --uuid --time --help --version validate show normalise demo certify recheck author weed seek view' ;;
  esac
  COMPREPLY=($(compgen -W "$words" -- "$word"))
}
complete -o filenames -F _witval witval witval-view witval-task
