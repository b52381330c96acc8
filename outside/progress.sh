# How far a script is, told on standard error: standard output has its results alone. sh and bash read it in, at the top of the
# repository; the script says in `who` what to call it.

begun=$(date +%s)

# Tells a line, with the minutes and seconds since the script began.
tell() {
  spent=$(($(date +%s) - begun))
  printf '%s: %s [%d:%02d]\n' "$who" "$*" $((spent / 60)) $((spent % 60)) >&2
}

# Whether a file has to be made: it is missing, or something that it is made of is newer.
stale() {
  product=$1
  shift
  # what the prover keeps in out/ is made, and no source
  [ ! -e "$product" ] || [ -n "$(find "$@" -name out -prune -o -newer "$product" -print -quit)" ]
}

# How many crates there are to prove for those named: these and all that they know; with none named, every crate.
crates_for() {
  awk -v wanted=" $* " '
    /^[^#]/ { sub(/:/, " "); line[++lines] = $0 }
    END {
      every = wanted == "  "
      # a crate stands below all that it knows
      for (; lines; lines--) {
        split(line[lines], word, " ")
        if (every || index(wanted, " " word[1] " ")) { count++; wanted = wanted line[lines] " " }
      }
      print count
    }' crates.txt
}

# Tells of a crate, once; one that was proved before is only counted.
tell_crate() { # CRATE OF
  case " $seen " in *" $1 "*) return ;; esac
  seen="$seen $1" proved=$((proved + 1))
  tell "$proved of $2 crates proved, $1"
}

# Passes on what rt prints, and tells of each crate as it is proved and of the edits of each as they are tried.
telling() { # CRATES EDITS
  proved=0 tried=0 seen= began=
  while IFS= read -r line || [ -n "$line" ]; do
    printf '%s\n' "$line"
    case $line in
    'rt: '*': trying its must-fail edits ('*)
      many=${line##*\(} line=${line#rt: }
      tried=$((tried + ${many%\)}))
      tell "$tried of $2 edits tried or begun, ${line%%:*}"
      ;;
    'rt: '*' NOT PROVED'* | 'rt: '*'NOT REFUSED'* | 'rt: '*'BAD EDIT'*) tell "${line#rt: }" ;;
    'rt: chose --jobs '*' for '*) began=${line##* } ;;
    'rt: '*' proved') line=${line#rt: } && tell_crate "${line% proved}" "$1" ;;
    'rt: '*' is kept: '*) line=${line#rt: } && tell_crate "${line%% *}" "$1" ;;
    # rt run and rt lib name a crate before they prove it, and not after
    'logic=proved'*) [ -z "$began" ] || tell_crate "$began" "$1" ;;
    esac
  done
}

# Runs rt, and tells how far it is. What rt prints is shown only where something is not proved.
proving() { # CRATES COMMAND...
  needed=$1
  shift
  said=$({ "$@" 2>&1 && echo 'all proved'; } | telling "$needed" 0)
  case $said in *'all proved') return ;; esac
  printf '%s\n' "$said" >&2
  return 1
}
