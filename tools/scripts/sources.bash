# What ./canvas and ./try know of the tree: which crates the program is built of, and whether the proved program that is there was built of them, by
# the toolchain that is here.
# Whoever reads this has set `top`, and has a function `stop` that says why it ends.

out="$top/crates/canvas_cli/out"
program="$out/canvas_cli"
built_of="$out/built-of"
declare -A line_of=() uses_of=()

# Sets `needed` to the crates that the program is built of in a tree, itself last, in the order of its crates.txt, and of each its line there and what it uses.
find_needed() {
  local file="$1/crates.txt" line name word more=1
  local -A is_needed=([canvas_cli]=1)
  local -a names=()
  needed=()
  line_of=()
  uses_of=()
  [ -r "$file" ] || stop "crates.txt is missing, or can't be read"
  while IFS= read -r line || [ -n "$line" ]; do
    line="${line%%#*}"
    name="${line%%[ :]*}"
    if [ -z "$name" ]; then continue; fi
    names+=("$name")
    line_of[$name]="$line"
    case "$line" in
      *:*) uses_of[$name]="${line#*:}" ;;
      *) uses_of[$name]='' ;;
    esac
  done <"$file"
  while ((more)); do
    more=0
    for name in "${!is_needed[@]}"; do
      for word in ${uses_of[$name]:-}; do
        if [ -n "${line_of[$word]:-}" ] && [ -z "${is_needed[$word]:-}" ]; then
          is_needed[$word]=1
          more=1
        fi
      done
    done
  done
  for name in "${names[@]}"; do
    if [ -n "${is_needed[$name]:-}" ]; then needed+=("$name"); fi
  done
}

# Sets `parts` to what the build is of, besides the crates' lines.
find_parts() {
  local name
  parts=(HANDLES)
  for name in "${needed[@]}"; do parts+=(crates/"$name"/{src,specs,proofs}); done
}

# Sets `toolchain` to the files that tell one toolchain from another, if there is one.
find_toolchain() {
  local rt
  toolchain=()
  if ! rt="$(type -P rt)" || ! rt="$(readlink -f -- "$rt")"; then return 0; fi
  toolchain=("$rt")
  if [ -e "${rt%/*/*}/KIT-ID" ]; then toolchain+=("${rt%/*/*}/KIT-ID"); fi
}

# The files that the build is of, the program and the toolchain, at a glance.
listing() {
  local -a parts toolchain
  find_parts
  find_toolchain
  cd "$top"
  exec find crates.txt "${parts[@]}" "$program" "${toolchain[@]}" -type f -printf '%p %s %T@ %C@\n' 2>/dev/null
}

# What they hold, in this tree or in a copy.
contents() {
  local tree="${1:-$top}" name
  local -a parts
  find_needed "$tree"
  find_parts
  cd "$tree"
  {
    for name in "${needed[@]}"; do echo "${line_of[$name]}"; done
    { find "${parts[@]}" -type f -print0 2>/dev/null || :; } | LC_ALL=C sort -z | xargs -0 sha256sum
  } | sha256sum
}

# A program's digest. Nothing is kept of one that can't be read.
digest() {
  local sum
  sum="$(sha256sum -- "$program")" && echo "${sum%% *}"
}

# The toolchain in its own words.
toolchain_id() { rt version 2>/dev/null | head -n 1; }

# Notes what the program was built of and by what: the sum of the sources, its digest, the toolchain, the crates, and the files at a glance.
keep() { printf '%s\n' "$1" "$2" "$3" "${needed[*]}" "$4" >"$built_of"; }

# Whether the program that is there was built of these files by this toolchain, or by one that is gone. They are read only if they look otherwise than
# when it was built.
is_built() {
  local built='' sum='' kit='' seen='' now LC_ALL=C
  needed=()
  [ -x "$program" ] && [ -f "$built_of" ] || return 1
  { read -r built && read -r sum && IFS= read -r kit && read -r -a needed && IFS= read -r -d '' seen; } <"$built_of" || :
  now="$(listing)" || :
  [ "$seen" != "$now"$'\n' ] || return 0
  find_needed "$top"
  [ -n "$built" ] && [ "$(contents 2>/dev/null)" = "$built" ] && [ "$(digest 2>/dev/null)" = "$sum" ] || return 1
  if command -v rt >/dev/null 2>&1 && [ "$(toolchain_id)" != "$kit" ]; then return 1; fi
  now="$(listing)" || :
  keep "$built" "$sum" "$kit" "$now" 2>/dev/null || :
}
