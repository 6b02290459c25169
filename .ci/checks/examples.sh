#!/usr/bin/env bash
# The examples: each job is answered as written beside it, and so is each job that asks for a minor, by the words of its first comment; what `build` writes of each text is the header beside it, what `dual` writes
# of a header is the one whose name ends in `_dual`, and each question put after a header is answered as written beside it. The program
# is the one that `rt ci` or `rt run` built.
set -u
cd "$(dirname "$0")/../.." || exit 1
program=crates/mso/out/mso
if [ ! -x "$program" ]; then
  echo "examples: no program was built; nothing is compared"
  exit 0
fi
failed=0
answered=0

writes() { # COMMAND TEXT HEADER
  if ! "$program" "$1" < "$2" | cmp -s - "$3"; then
    echo "examples: $1 of $2 does not write $3"
    failed=$((failed + 1))
  fi
}

for job in examples/*.mso; do
  answer=${job%.mso}.answer
  if "$program" run < "$job" | cmp -s - "$answer"; then
    answered=$((answered + 1))
  else
    echo "examples: $job is not answered as in $answer"
    failed=$((failed + 1))
  fi
done
for job in examples/*.minor; do
  answer=${job%.minor}.answer
  words=$(sed -n '1s/^# \(minor [^:]*\):.*/\1/p' "$job")
  # the words stand in the job's first comment
  # shellcheck disable=SC2086
  if "$program" $words < "$job" | cmp -s - "$answer"; then
    answered=$((answered + 1))
  else
    echo "examples: $job is not answered as in $answer"
    failed=$((failed + 1))
  fi
done
for text in examples/*.mso-build; do
  writes build "$text" "${text%.mso-build}.header"
done
for dual in examples/*_dual.header; do
  writes dual "${dual%_dual.header}.header" "$dual"
done
for answers in examples/*.answers; do
  name=${answers%.answers}
  while read -r question && read -r answer; do
    got=$({ cat "$name.header"; echo "$question"; } | "$program" run)
    if [ "$got" = "$answer" ]; then
      answered=$((answered + 1))
    else
      echo "examples: $name: $question: $got, and not $answer"
      failed=$((failed + 1))
    fi
  done < "$answers"
done
echo "examples: $answered answered, $failed failed"
[ "$failed" -eq 0 ]
