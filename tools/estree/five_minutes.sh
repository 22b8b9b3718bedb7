#!/usr/bin/env bash
# Goes through what README shows, as somebody who sees the repository for the first time: clones it into an empty folder, runs
# each command of README's `console` blocks there and fails where an output isn't the one that is shown; then prints a source
# file of 200 lines, pretty and minified, and fails where node runs a printed program to another output than the source.
set -euo pipefail
source=$(cd "$(dirname "$0")/../.." && pwd)
folder=$(mktemp -d)
trap 'rm -rf "$folder"' EXIT

failed() {
  echo "five_minutes: $1" >&2
  exit 1
}

# Runs one command of README, and compares.
shown() {
  local wanted=$1 command=$2 given
  given=$(bash -c "$command") || failed "status $? of: $command"
  [ "$given" = "$wanted" ] || failed "another output of: $command"$'\n'"$given"
  echo "$SECONDS s: $command"
}

commands_of_readme() {
  local line command="" wanted="" within=no
  while IFS= read -r line; do
    case $within:$line in
      no:'```console') within=yes ;;
      yes:'```')
        [ -z "$command" ] || shown "${wanted%$'\n'}" "$command"
        command="" wanted="" within=no
        ;;
      yes:'$ '*)
        [ -z "$command" ] || shown "${wanted%$'\n'}" "$command"
        command=${line#'$ '} wanted=""
        ;;
      yes:*) wanted+=$line$'\n' ;;
    esac
  done <README.md
}

git clone -q "$source" "$folder/jsgen"
cd "$folder/jsgen"
commands_of_readme
for style in "" --minify; do
  # shellcheck disable=SC2086
  node tools/estree/print.mjs $style examples/planets.js >"$folder/printed.mjs" || failed "examples/planets.js isn't printed"
  cmp <(node examples/planets.js) <(node "$folder/printed.mjs") || failed "the printed program does something else"
  echo "$SECONDS s: examples/planets.js printed ${style:-pretty}, and run"
done
