# Completion for bash of cose-gate and its sisters: options as `--help` has them, algorithms after --new and --alg, else files.
_cose_gate() {
  local word=${COMP_WORDS[COMP_CWORD]} before=${COMP_WORDS[COMP_CWORD - 1]} words=
  if [[ $before == --new || $before == --alg ]]; then
    words=$(cose-verify --help-algorithms 2> /dev/null | awk '{ print $2 }')
  elif [[ $word == -* ]]; then
    words="--help --version "$("$1" --help 2> /dev/null | grep -E '^(usage:|  -|  +cose-)' | grep -oE -- '[[( ]--?[a-z][a-z0-9-]*' | tr -d '[( ')
  fi
  mapfile -t COMPREPLY < <(if [ -n "$words" ]; then compgen -W "$words" -- "$word"; else compgen -f -- "$word"; fi | sort -u)
}
complete -o filenames -F _cose_gate cose-gate cose-ask cose-pass cose-sift cose-show cose-verify cose-key cose-make
