# Completion of kql for bash, and how wide the terminal is: source this file in ~/.bashrc.
_kql() {
  local word="${COMP_WORDS[COMP_CWORD]}" before="" command="${COMP_WORDS[1]}"
  COMPREPLY=()
  [ "$COMP_CWORD" -gt 0 ] && before="${COMP_WORDS[COMP_CWORD - 1]}"
  case "$before" in
    --output) mapfile -t COMPREPLY < <(compgen -W "csv table json jsonl" -- "$word"); return ;;
    -e | --now | --workers | --limit | --memory | --readers) return ;;
    -q | --catalogue) mapfile -t COMPREPLY < <(compgen -f -- "$word"); compopt -o filenames; return ;;
    help)
      mapfile -t COMPREPLY < <(compgen -W "show command schema types run plain explain trial live examples cookbook csv json limits query literals let range print union columns kusto where extend project project-away project-keep project-rename take limit count sort order top distinct summarize make-series mv-expand parse join lookup serialize scan partition functions operators searches nulls numbers conversions strings datetimes dynamic window aggregates tables codes" -- "$word")
      return ;;
  esac
  if [ "$COMP_CWORD" -eq 1 ]; then
    mapfile -t COMPREPLY < <(compgen -W "show schema types run plain explain trial live help -e -q --memory --help --version" -- "$word")
    return
  fi
  case "$word" in
    -*)
      case "$command" in
        run | plain) mapfile -t COMPREPLY < <(compgen -W "--now --limit --catalogue --types --workers --help" -- "$word") ;;
        explain) mapfile -t COMPREPLY < <(compgen -W "--now --limit --catalogue --workers --help" -- "$word") ;;
        live) mapfile -t COMPREPLY < <(compgen -W "--readers --now --watch --view --help" -- "$word") ;;
        trial) mapfile -t COMPREPLY < <(compgen -W "--workers --help" -- "$word") ;;
        schema) mapfile -t COMPREPLY < <(compgen -W "--output --all --limit --help" -- "$word") ;;
        types) mapfile -t COMPREPLY < <(compgen -W "--limit --write --help" -- "$word") ;;
        *) mapfile -t COMPREPLY < <(compgen -W "-e -q --output --all --now --limit --catalogue --types --workers --help" -- "$word") ;;
      esac ;;
    *=*)
      local name="${word%%=*}"
      mapfile -t COMPREPLY < <(compgen -P "$name=" -f -- "${word#*=}") ;;
    *) mapfile -t COMPREPLY < <(compgen -f -- "${word#=}") ;;
  esac
  compopt -o filenames 2>/dev/null
}
complete -F _kql kql ./kql

# A table to look at is as wide as the terminal, which the program knows from COLUMNS alone; bash knows it and does not hand it on.
kql() {
  COLUMNS="${COLUMNS:-80}" command kql "$@"
}
