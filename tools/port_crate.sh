#!/usr/bin/env bash
# Turns one crate's proofs to today's form and takes out what the check refuses: tools/port_crate.sh CRATE, at the top
set -u
cd "$(dirname "$0")/../crates/$1" || exit 2
names=$(mktemp -d)
rt check --generated "$names/g" --old-names > "$names/said" 2>&1
if [ ! -f "$names/g/names.json" ]; then tail -30 "$names/said"; exit 1; fi
python3 ../../tools/to_answers.py "$names/g/names.json" . | grep -v ': turned$'
rt fmt > /dev/null 2>&1
python3 ../../tools/settle.py
rm -rf "$names"
