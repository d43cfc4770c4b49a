# What the scripts know of the words of `canvas` while there is no program,
# made by docs/completions/make, of the program's own help.

commands=(run turns normal check adapt graph page messages export keys collect help)

# Whether the word after a command's option is its value.
takes_value() {
  case "$1" in
    *" --workers" | *" --task" | *" --tasks" | *" --failures") return 0 ;;
    *" --turns" | *" --again" | *" --rename" | *" --results") return 0 ;;
    *" --of" | "export --run" | *" --values" | *" --queue") return 0 ;;
    *" --prefix" | *" --expires" | *" --broker-db" | *" --backend-db") return 0 ;;
    "keys --run" | "collect --run") return 0 ;;
  esac
  return 1
}
