# Completions for bash of sigverify, sigverify-bundle and sigverify-checked. Made by tools/man_pages of what --help writes.

# The words of the list that begin with the one at the cursor.
_sigverify_reply() {
  mapfile -t COMPREPLY < <(compgen -W "$1" -- "$2")
}

_sigverify() {
  case ${COMP_WORDS[*]:1:COMP_CWORD-1} in
  '') _sigverify_reply 'log verify consistency audit witness gate questions explain demo --help --version' "${COMP_WORDS[COMP_CWORD]}" ;;
  'questions') _sigverify_reply 'log verify consistency audit witness gate' "${COMP_WORDS[COMP_CWORD]}" ;;
  'explain') _sigverify_reply 'log verify consistency audit witness gate' "${COMP_WORDS[COMP_CWORD]}" ;;
  *) COMPREPLY=() ;;
  esac
}

_sigverify_bundle() {
  COMPREPLY=()
  case ${COMP_WORDS[COMP_CWORD-1]} in
  --trusted-root | --bundle | --certificate-identity | --identity | --certificate-identity-regexp | \
    --certificate-oidc-issuer | --issuer | --certificate-github-workflow-trigger | \
    --certificate-github-workflow-sha | --certificate-github-workflow-name | \
    --certificate-github-workflow-repository | --certificate-github-workflow-ref | --now | --sigverify) return ;;
  esac
  case ${COMP_WORDS[COMP_CWORD]} in
  -*) _sigverify_reply '--trusted-root --bundle --certificate-identity --identity --certificate-identity-regexp
    --certificate-oidc-issuer --issuer --certificate-github-workflow-trigger
    --certificate-github-workflow-sha --certificate-github-workflow-name
    --certificate-github-workflow-repository --certificate-github-workflow-ref --now --explain --json
    --print-request --sigverify --help' "${COMP_WORDS[COMP_CWORD]}" ;;
  esac
}

_sigverify_checked() {
  COMPREPLY=()
  case ${COMP_WORDS[COMP_CWORD-1]} in
  --sigverify) return ;;
  esac
  case ${COMP_WORDS[COMP_CWORD]} in
  -*) _sigverify_reply '--explain --json --print-request --sigverify --help' "${COMP_WORDS[COMP_CWORD]}" ;;
  *) _sigverify_reply 'log verify consistency audit witness gate' "${COMP_WORDS[COMP_CWORD]}" ;;
  esac
}

complete -F _sigverify sigverify
complete -o default -F _sigverify_bundle sigverify-bundle
complete -o default -F _sigverify_checked sigverify-checked
