# How many checks go on side by side, where each may hold so many kilobytes: one a processor, as far as the free memory is enough.
count_jobs() {
  local word kilobytes=0 count by_memory
  count="$(nproc)" || count=1
  while read -r word kilobytes _; do
    if [ "$word" = MemAvailable: ]; then break; fi
  done 2>/dev/null </proc/meminfo || :
  by_memory=$((${kilobytes:-0} / $1))
  if ((by_memory < count)); then count="$by_memory"; fi
  echo $((count > 1 ? count : 1))
}
