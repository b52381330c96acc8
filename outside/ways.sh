# The proved code for C, compiled with other words than the kit's own. sh and bash read it in, at the top of the repository.

# What C sees of the library: three crates, and an object of each.
surface='module look moves'

# The archives of dist/, 'NAME: WORDS' a line. A word is an option of LLVM's own, unless it begins with '-'. What each gives, in bytes and in
# machine instructions a step, 'outside/size --tried' prints. `apart` is a word of ours: the functions below are not laid into their caller,
# though they have but one.
library_ways() {
  cat <<'END'
fast: apart bonus-inst-threshold=0 inline-threshold=275 two-entry-phi-node-folding-threshold=2
flash: apart bonus-inst-threshold=0 inline-threshold=275 two-entry-phi-node-folding-threshold=2 vectorize-slp=false disable-block-placement tail-merge-size=2 tail-dup-size=1 min-jump-table-entries=6 disable-licm-promotion twoaddr-reschedule=false
END
}
apart=run::run

doc=$(rt doc)
kit=${doc%/*}

# An archive of objects, or of those in archives.
archive() { # FILE FROM...
  "$kit/toolchain/bin/llvm-ar" qcsDL "$@"
}

# Makes the objects in each way of standard input, in INTO/NAME: all in one reading of the crates, side by side. Where FIRST is given, the
# proved libraries in it stand before those of crates/. It works in a folder of its own, since one that was broken off may still go on.
in_ways() { # INTO [FIRST]
  mkdir -p target
  into=$(mktemp -d "$PWD/target/ways.XXXXXX")
  goal=$1 first=${2-} working= broken=
  cat >"$into/ways"
  printf '%s,noinline\n' $apart >"$into/ways.apart"
  for crate in $surface; do
    tools_for "$crate" "$into/$crate.tools"
    prove_crate "$crate" "crates/$crate" "$first" --toolchain "$into/$crate.tools" --crate-type staticlib -o "$into/lib$crate.a" \
      >"$into/$crate.said" 2>&1 &
    working="$working $!"
  done
  for process in $working; do wait "$process" || broken=yes; done
  if [ -n "$broken" ]; then
    cat "$into"/*.said >&2
    rm -rf "$into"
    return 1
  fi
  rm -rf "$goal"
  mv "$into" "$goal"
}

# Proves a crate and makes something of it, with the words that rt has: CRATE FOLDER FIRST WORDS...
prove_crate() {
  crate=$1 folder=$2 before=$3
  shift 3
  # where the proved libraries lie: those of FIRST, then those that rt made
  lies() { if [ -n "$before" ] && [ -e "$before/$1.rlib" ]; then echo "$before/$1.rlib"; else echo "$PWD/crates/$1/out/rlib/$1.rlib"; fi; }
  for library in $(sed -nE "s/^$crate( staticlib)?: *//p" crates.txt); do set -- "$@" --extern "$library=$(lies "$library")"; done
  [ -z "$before" ] || set -- "$@" -L "dependency=$before"
  for library in crates/*/out/rlib; do set -- "$@" -L "dependency=$PWD/$library"; done
  (cd "$folder" && "$kit/bin/rattle" build --crate-name "$crate" src/lib.rt --extern "std=$kit/rlibs/std.rlib" "$@" \
    -L "dependency=$kit/rlibs" --antt-project "$kit/rattle/logic/antt-project.json" --logic-built "$kit/logic_built")
}

# A folder of tools for the prover: scripts that call the kit's. Its compiler does what it is told, once for each way with the way's words
# behind, and then without. The prover calls them with an empty environment, so that they have all paths in them.
tools_for() { # CRATE FOLDER
  mkdir -p "$2/bin"
  ln -s "$kit/toolchain/lib" "$2/lib"
  for tool in clang llvm-ar ld.lld; do
    {
      echo '#!/bin/sh'
      [ "$tool" != clang ] || cat <<END
while IFS=: read -r name words; do
  mkdir -p "$into/\$name"
  [ ! -e "$into/\$name/$1.o" ] || exit 1 # it is called once
  (
    for word in \$words; do
      case \$word in
      -*) set -- "\$@" "\$word" ;;
      apart) set -- "\$@" -mllvm "-forceattrs-csv-path=$into/ways.apart" ;;
      *) set -- "\$@" -mllvm "-\$word" ;;
      esac
    done
    exec "$kit/toolchain/bin/clang" "\$@" -o "$into/\$name/$1.o" </dev/null
  ) || exit
done <"$into/ways"
END
      echo "exec \"$kit/toolchain/bin/$tool\" \"\$@\""
    } >"$2/bin/$tool"
    chmod +x "$2/bin/$tool"
  done
}
