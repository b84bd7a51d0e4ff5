#compdef teredo
# Completion of teredo's words for zsh: commands, files, and the options of the tools.
# In a checkout, behind compinit: . tools/completion.zsh. Else as _teredo in a folder of $fpath.
_teredo() {
  local -a options kinds addresses
  local name=$words[2] before=$words[CURRENT-1]
  kinds=(cone restricted port symmetric native)
  if (( CURRENT == 2 )); then
    compadd -- lab nested reach gen show wire audit explain serve qualify lint trace follow state flow json csv play check generated explore sweep web page meet pairs capture build help --help --version
    return
  fi
  case $name in
    help) (( CURRENT > 3 )) || compadd -- lab nested reach gen show wire audit explain serve qualify lint trace follow state flow json csv play check generated explore sweep web page meet pairs capture build; return ;;
    lint | json | csv | play) options=(--program --chain) ;;
    trace) options=(--program --chain --event --packets) ;;
    follow) options=(--program --chain --packet --lines --json) ;;
    state) options=(--program --chain --at --node --json) ;;
    flow) options=(--program --chain --svg --wide --narrow --ends --from --to --nodes) ;;
    explore) options=(--program --chain --event --lose --repeat --most --jobs) ;;
    sweep) options=(--program --set --seeds --lose --delay --shard --plot --out --resume --jobs) ;;
    web) options=(--program --port --no-browser) ;;
    page) options=(--program --out) ;;
    check) options=(--program --write) ;;
    pairs) options=(--check --scenario --no-cone) ;;
    capture) options=(--program --to --judge --overlap) ;;
    build) options=(--jobs) ;;
  esac
  if [[ $before == --scenario || $words[CURRENT-2] == --scenario ]]; then
    compadd -- $kinds
    return
  fi
  case $before in
    --chain | --event | --packet | --at | --node | --from | --to | --nodes | --jobs | --lose | --delay | --repeat | --most | --set | --seeds | --shard | --plot | --port | --overlap) return ;;
  esac
  if [[ $PREFIX == -* ]]; then
    compadd -- $options --help
    return
  fi
  case $name:$((CURRENT - 1)) in
    lab:2 | nested:2 | reach:2 | wire:2 | audit:4 | explain:4 | lint:* | trace:* | follow:* | state:* | flow:* | json:* | csv:* | play:* | check:* | explore:* | sweep:* | web:* | page:* | meet:* | capture:*)
      _files
      ;;
    serve:[23] | audit:[23] | explain:[23] | qualify:[234])
      addresses=(${(f)"$(ip -4 -o address 2>/dev/null | awk '{sub(/\/.*/, "", $4); print $4}')"})
      compadd -- $addresses
      ;;
    pairs:*) compadd -- $options ;;
  esac
}
if [[ $funcstack[1] == _teredo ]]; then
  _teredo "$@"
else
  compdef _teredo teredo
fi
