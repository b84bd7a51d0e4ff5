# Completion of teredo's words for bash: commands, files, and the options of the tools.
# In a checkout: . tools/completion.bash
_teredo() {
  local word=${COMP_WORDS[COMP_CWORD]} before=${COMP_WORDS[COMP_CWORD-1]} name=${COMP_WORDS[1]} options=
  COMPREPLY=()
  if [ "$COMP_CWORD" -eq 1 ]; then
    mapfile -t COMPREPLY < <(compgen -W 'lab nested reach gen show wire audit explain serve qualify lint trace follow state flow json csv play check generated explore sweep web page meet pairs capture build help --help --version' -- "$word")
    return
  fi
  case $name in
    lint | json | csv | play) options='--program --chain' ;;
    trace) options='--program --chain --event --packets' ;;
    follow) options='--program --chain --packet --lines --json' ;;
    state) options='--program --chain --at --node --json' ;;
    flow) options='--program --chain --svg --wide --narrow --ends --from --to --nodes' ;;
    explore) options='--program --chain --event --lose --repeat --most --jobs' ;;
    sweep) options='--program --set --seeds --lose --delay --shard --plot --out --resume --jobs' ;;
    web) options='--program --port --no-browser' ;;
    page) options='--program --out' ;;
    check) options='--program --write' ;;
    pairs) options='--check --scenario --no-cone' ;;
    capture) options='--program --to --judge --overlap' ;;
    build) options='--jobs' ;;
  esac
  if [ "$before" = --scenario ] || [ "${COMP_WORDS[COMP_CWORD-2]}" = --scenario ]; then
    mapfile -t COMPREPLY < <(compgen -W 'cone restricted port symmetric native' -- "$word")
    return
  fi
  case $before in
    --chain | --event | --packet | --at | --node | --from | --to | --nodes | --jobs | --lose | --delay | --repeat | --most | --set | --seeds | --shard | --plot | --port | --overlap) return ;;
  esac
  case $word in
    -*) mapfile -t COMPREPLY < <(compgen -W "$options --help" -- "$word"); return ;;
  esac
  case $name:$COMP_CWORD in
    lab:2 | nested:2 | reach:2 | wire:2 | audit:4 | explain:4 | lint:* | trace:* | follow:* | state:* | flow:* | json:* | csv:* | play:* | check:* | explore:* | sweep:* | web:* | page:* | meet:* | capture:*)
      compopt -o filenames 2>/dev/null
      mapfile -t COMPREPLY < <(compgen -f -- "$word")
      ;;
    serve:[23] | audit:[23] | explain:[23] | qualify:[234])
      mapfile -t COMPREPLY < <(compgen -W "$(ip -4 -o address 2>/dev/null | awk '{sub(/\/.*/, "", $4); print $4}')" -- "$word")
      ;;
    help:2)
      mapfile -t COMPREPLY < <(compgen -W 'lab nested reach gen show wire audit explain serve qualify lint trace follow state flow json csv play check generated explore sweep web page meet pairs build' -- "$word")
      ;;
    pairs:*) mapfile -t COMPREPLY < <(compgen -W "$options" -- "$word") ;;
  esac
}
complete -F _teredo teredo ./teredo
