# Completion of the words of rls for bash: source this file, or link it as ~/.local/share/bash-completion/completions/rls.
_rls() {
  local word=${COMP_WORDS[COMP_CWORD]}
  COMPREPLY=()
  if [ "$COMP_CWORD" = 1 ]; then
    mapfile -t COMPREPLY < <(compgen -W 'share join sync who where drop give part new edit text ids stat check send take head leave retire restart trial session build help --version' -- "$word")
  elif [ "$COMP_CWORD" = 2 ] && [ "${COMP_WORDS[1]}" = edit ]; then
    mapfile -t COMPREPLY < <(compgen -W '--text' -- "$word")
  elif [ "$COMP_CWORD" = 2 ] && [[ ${COMP_WORDS[1]} == @(send|retire) ]] && [ -e replica.gate ]; then
    # The numbers of the other members, from the head of the stored file.
    local gate head i others=()
    read -r gate < <(od -An -tu1 -N1 replica.gate 2>/dev/null)
    read -r -a head < <(od -An -v -tu1 -w40 -j8 -N21 "replica.$((${gate:-0} % 2))" 2>/dev/null)
    for ((i = 0; i < ${head[16]:-0}; i++)); do [ "$i" = "${head[20]}" ] || others+=("$i"); done
    mapfile -t COMPREPLY < <(compgen -W "${others[*]}" -- "$word")
  fi
}
complete -o default -F _rls rls
