# How machine instructions are counted; bash reads it in, after machine.sh and where bench is built. On x86-64 valgrind counts; elsewhere
# the emulator, through a plug-in of ours.

if on_x86; then
  command -v valgrind >/dev/null || install valgrind
else
  plugin=
  # The plug-in must name the age of qemu's interface; the first that qemu takes is right.
  for version in 1 2 3 4 5 6; do
    cc -O2 -shared -fPIC -DVERSION=$version -o "$made/count.so" "$outside/count.c"
    if qemu-x86_64 -plugin "$made/count.so" "$made/bench" --only ldir 1 >/dev/null 2>&1; then
      plugin=$made/count.so
      break
    fi
  done
  [ -n "$plugin" ] || { echo "outside/counting.sh: this qemu takes no plug-in" >&2; exit 1; }
fi

# The instructions of a whole run of a mix or a kind: BENCH NAME STEPS.
counted() {
  if on_x86; then
    valgrind --tool=callgrind --log-fd=1 --callgrind-out-file=/dev/null "$1" --only "$2" "$3" |
      sed -nE 's/.*Collected : ([0-9]+).*/\1/p'
  else
    qemu-x86_64 -plugin "$plugin" "$1" --only "$2" "$3" 2>&1 | sed -nE 's/^instructions ([0-9]+)$/\1/p'
  fi
}

# The instructions a step: BENCH NAME STEPS. Each is run twice, for twice as many steps the second time: what differs is the steps alone,
# so the count is exact and comes out the same every time.
a_step() {
  local one two
  one=$(counted "$1" "$2" "$3")
  two=$(counted "$1" "$2" $((2 * $3)))
  printf '%d.%02d' $(((two - one) / $3)) $(((two - one) * 100 / $3 % 100))
}
