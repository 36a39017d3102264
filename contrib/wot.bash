# Completion for bash: the commands of `wot` with their arguments, and the options, names and letters of the programs beside it.
# Source this file, or put it into bash-completion's folder under each of the names at its end.

# what `wot list` prints of the store that the words are about, by an awk program: of the current folder's, or of the one that wot-in goes
# to; where there is none, none is made
_wot_listed() {
  local program=$1 beside=${COMP_WORDS[0]%"${COMP_WORDS[0]##*/}"} at store=()
  case ${COMP_WORDS[0]##*/} in
    wot) [ -e wot.0 ] || return 0; set -- "${COMP_WORDS[0]}" ;;
    *)
      for ((at = 1; at < COMP_CWORD - 1; at++)); do
        # bash splits words at =
        [ "${COMP_WORDS[at]}" != --store ] || { [ "${COMP_WORDS[at + 1]}" != = ] || at=$((at + 1)); store=(--store "${COMP_WORDS[at + 1]}"); }
      done
      set -- "${beside}wot-in" "${store[@]}" ;;
  esac
  command "$@" list < /dev/null 2> /dev/null | LC_ALL=C awk -F: "$program"
}

_wot_fingerprints() { _wot_listed '$1 == "fpr" { print $10 }'; }

# the addresses of user IDs, and the names of those that have none
_wot_names() {
  _wot_listed '$1 == "uid" { text = $10; if (text ~ /<[^<> ]+>$/) { sub(/.*</, "", text); sub(/>$/, "", text) } if (text !~ /[ \\]/) print text }'
}

_wot_words() {
  local word
  while IFS= read -r word; do COMPREPLY+=("$word"); done < <(compgen -W "$1" -- "$current")
}

# words that may have an @, at which bash splits: it completes the part from the @ on, and what stands before is typed already
_wot_whole_words() {
  local part=$2 typed=${COMP_LINE:0:${COMP_POINT:-0}} at
  typed=${typed##*[[:space:]]}
  case $typed in *"$part") current=$typed ;; *) current=$part ;; esac
  _wot_words "$1"
  for at in "${!COMPREPLY[@]}"; do COMPREPLY[at]=${COMPREPLY[at]#"${current%"$part"}"}; done
}

_wot() {
  local current=${COMP_WORDS[COMP_CWORD]} command='' place=0 at word
  COMPREPLY=()
  case ${COMP_WORDS[COMP_CWORD - 1]} in
    --workers) return 0 ;;
    --store) _wot_folders; return 0 ;;
  esac
  for ((at = 1; at < COMP_CWORD; at++)); do
    word=${COMP_WORDS[at]}
    case $word in
      # bash splits words at =
      --workers | --store) at=$((at + 1)); [ "${COMP_WORDS[at]}" != = ] || at=$((at + 1)) ;;
      --workers=* | --store=* | --) ;;
      *)
        case $command in
          '') command=$word ;;
          # an edit with its words stands behind it
          suppose) command="suppose $word" ;;
          # how many edits, and then a query with its words
          at) command='at N' ;;
          'at N') command="at $word" ;;
          *) place=$((place + 1)) ;;
        esac ;;
    esac
  done
  case $command:$place in
    :*)
      _wot_words 'trust disable enable delete date options import ownertrust list sigs export why suppose critical at check compact quit'
      case ${COMP_WORDS[0]##*/} in
        wot-in) _wot_words '--help --store --workers' ;;
        # a made key may be ultimately trusted, so none is offered where a store is
        *) _wot_words --workers; [ -e wot.0 ] || _wot_words sample ;;
      esac ;;
    suppose:0) _wot_words 'trust date options' ;;
    'at N:0') _wot_words 'list why' ;;
    trust:0 | 'suppose trust:0' | disable:0 | enable:0 | delete:0 | list:0 | sigs:0 | why:0 | critical:0 | 'at list:0' | 'at why:0')
      current=${current^^}
      _wot_words "$(_wot_fingerprints)" ;;
    trust:1 | 'suppose trust:1') _wot_words 'o q n m f u' ;;
    options:0 | 'suppose options:0') _wot_words 'pgp classic' ;;
  esac
}

_wot_folders() {
  local word
  while IFS= read -r word; do COMPREPLY+=("$word"); done < <(compgen -d -- "$current")
}

_wot_programs() {
  local current=${COMP_WORDS[COMP_CWORD]} before=${COMP_WORDS[COMP_CWORD - 1]}
  COMPREPLY=()
  [ "$before" != = ] || before=${COMP_WORDS[COMP_CWORD - 2]}
  case ${COMP_WORDS[0]##*/}:$before:$current in
    wot-verify:--want:*) _wot_words 'u f m q -' ;;
    *:--min-cert-level:*) _wot_words '1 2 3' ;;
    *:--store:*) _wot_folders ;;
    # as the program itself tells its options
    *:*:-*) _wot_words "$(command "${COMP_WORDS[0]}" --help 2> /dev/null | sed -n 's/^  \(-h, \)\{0,1\}\(--[a-z-]*\).*/\2/p')" ;;
    wot-suppose:--date:*) _wot_words next ;;
    wot-history:--since:* | wot-history:--until:*) ;;
    wot-suppose:*) _wot_whole_words "$(_wot_names) ultimate full marginal never none" "${2-$current}" ;;
    wot-verify:--by:* | wot-report:--why:* | wot.py:* | wot-critical:* | wot-history:* | wot-list:* | wot-why:* | wot-why-not:*) _wot_whole_words "$(_wot_names)" "${2-$current}" ;;
  esac
}

complete -F _wot wot wot-in
complete -o default -F _wot_programs deb wot.py wot-critical wot-history wot-import wot-list wot-nightly wot-report wot-suppose wot-sync wot-verify wot-why wot-why-not
