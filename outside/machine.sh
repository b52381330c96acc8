# What the scripts here share; bash reads it in. The proved library is x86-64
# code: on another machine the programs that link it are built for x86-64 with
# Debian's compiler and run under an emulator.

outside=$(cd "$(dirname "${BASH_SOURCE[0]}")" && pwd)
made=$outside/target/x86-64
target=x86_64-unknown-linux-gnu

on_x86() { [ "$(uname -m)" = x86_64 ]; }

# Runs an x86-64 program.
x86() {
  if on_x86; then "$@"; else qemu-x86_64 "$@"; fi
}

# Installs packages, and says nothing unless that fails.
install() {
  local log
  log=$(mktemp)
  if ! { apt-get update -qq && DEBIAN_FRONTEND=noninteractive apt-get install -y -qq --no-install-recommends "$@"; } >"$log" 2>&1; then
    cat "$log" >&2
    rm -f "$log"
    return 1
  fi
  rm -f "$log"
}

# The first Rust compiler on the path that has the standard library for x86-64.
compiler() {
  local rustc library
  for rustc in $(type -aP rustc); do
    library=$("$rustc" --print target-libdir --target "$target" 2>/dev/null) || continue
    if compgen -G "$library/libstd-*.rlib" >/dev/null; then
      echo "$rustc"
      return
    fi
  done
  return 1
}
