# Completions for bash: source this file, or put it into the folder of bash-completion under the name aadl_fta.
# It is written by tools/pages.

# Offers some of these names with + between them, none twice, for what stands behind the = of a word or in a word of its own.
_aadl_fta_names() {
  local said=$1 front='' left='' name
  [[ $said == *+* ]] && front=${said%+*}+
  for name in $2; do
    [[ +$front == *+$name+* ]] || left+=" $name"
  done
  COMPREPLY=($(compgen -P "$front" -W "$left" -- "${said##*+}"))
  compopt -o nospace 2>/dev/null
}

_aadl_fta() {
  local commands='check cuts tree fmea report make galileo paths why confirm targets events review place manifest refusals probability require compare explain help version'
  local cur prev words cword options='' files_from=0
  # A colon and an equals sign end a word for bash. bash-completion joins what they part; without it a root counts as several words.
  if declare -F _get_comp_words_by_ref >/dev/null; then
    _get_comp_words_by_ref -n := cur prev words cword
  else
    words=("${COMP_WORDS[@]}") cword=$COMP_CWORD
    cur=${words[cword]} prev=${words[cword - 1]}
  fi
  COMPREPLY=()
  if [ "$cword" -eq 1 ]; then
    COMPREPLY=($(compgen -W "$commands" -- "$cur"))
    return
  fi
  # Behind an option with a value stands that, which can be completed only where it is one of some names.
  case $cur in
    --profile=*)
      _aadl_fta_names "${cur#*=}" '1 2'
      [[ $COMP_WORDBREAKS == *=* ]] || COMPREPLY=("${COMPREPLY[@]/#/${cur%%=*}=}")
      return
      ;;
    --format=*)
      _aadl_fta_names "${cur#*=}" 'galileo mef dot'
      [[ $COMP_WORDBREAKS == *=* ]] || COMPREPLY=("${COMPREPLY[@]/#/${cur%%=*}=}")
      return
      ;;
    --gates=*)
      _aadl_fta_names "${cur#*=}" 'written merged'
      [[ $COMP_WORDBREAKS == *=* ]] || COMPREPLY=("${COMPREPLY[@]/#/${cur%%=*}=}")
      return
      ;;
    --unrated=*)
      _aadl_fta_names "${cur#*=}" '1 refuse'
      [[ $COMP_WORDBREAKS == *=* ]] || COMPREPLY=("${COMPREPLY[@]/#/${cur%%=*}=}")
      return
      ;;
    --reports=*)
      _aadl_fta_names "${cur#*=}" 'orders uses singles'
      [[ $COMP_WORDBREAKS == *=* ]] || COMPREPLY=("${COMPREPLY[@]/#/${cur%%=*}=}")
      return
      ;;
    --*=*) return ;;
  esac
  case $prev in
    --profile)
      _aadl_fta_names "$cur" '1 2'
      return
      ;;
    --format)
      _aadl_fta_names "$cur" 'galileo mef dot'
      return
      ;;
    --gates)
      _aadl_fta_names "$cur" 'written merged'
      return
      ;;
    --unrated)
      _aadl_fta_names "$cur" '1 refuse'
      return
      ;;
    --reports)
      _aadl_fta_names "$cur" 'orders uses singles'
      return
      ;;
    --limit | --after | --max-order | --hours | --set) return ;;
  esac
  # The options of the command, and the number of its first word that is a file.
  case ${words[1]} in
    check | events | review | manifest | refusals) options='--profile' files_from=3 ;;
    cuts) options='--limit --after --max-order --tokens --profile' files_from=4 ;;
    tree) options='--format --gates --unrated --profile' files_from=4 ;;
    fmea) options='--all --sheet --profile' files_from=3 ;;
    targets) options='--all --profile' files_from=3 ;;
    report) options='--reports --max-order --profile' files_from=4 ;;
    make) options='--text' ;;
    galileo) options='--profile --paths --limit --max-order --format --gates --probability --hours --events' files_from=2 ;;
    paths) options='--limit --after --max-order --profile' files_from=4 ;;
    why | confirm) options='--set --profile' files_from=4 ;;
    place) [ "$cword" -eq 2 ] && files_from=2 ;;
    probability) options='--hours --events --max-order --profile' files_from=4 ;;
    require) options='--tap --profile' files_from=3 ;;
    compare) options='--max-order --profile' files_from=4 ;;
    help)
      [ "$cword" -eq 2 ] && COMPREPLY=($(compgen -W "$commands" -- "$cur"))
      return
      ;;
  esac
  if [[ $cur == -* ]]; then
    COMPREPLY=($(compgen -W "$options" -- "$cur"))
  elif [ "$files_from" -gt 0 ] && [ "$cword" -ge "$files_from" ]; then
    local file
    while IFS= read -r file; do
      COMPREPLY+=("$file")
    done < <(compgen -f -- "$cur")
    compopt -o filenames 2>/dev/null
    # Of a name with a colon bash takes what stands behind the last one.
    declare -F __ltrim_colon_completions >/dev/null && __ltrim_colon_completions "$cur"
  fi
}

complete -F _aadl_fta aadl_fta
