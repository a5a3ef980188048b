#!/usr/bin/env bash
# Lists the candidates for each kind of place that docs/DESIGN-PASS.md numbers in the sources, by the words that each form is written with.
# Usage: tools/places.sh [DIR], the top of a checkout. A line for each place: kind, file, line, text.
set -euo pipefail
cd "${1:-.}"
src() { grep -rnE --include=*.rt "$1" crates/*/src || true; }
mark() { sed "s/^/$1 /"; }
# 1: enums; numbers of refusals; a call on a `&mut` that tells by a bool; 0 for none; places of keys as kinds
src '^ *(pub(\(crate\))? )?enum ' | mark 1
src 'fn number\(self\)|&mut self.*-> bool$|\b(here|child|before)( ==| !=) 0|match place\(|Option<(EncodeFault|Self::Fault)>' | mark 1
# 2: functions of one name (or one name but for a prefix or suffix) in several places
src '^ *(pub(\(crate\))? )?(extern "C" )?fn [a-z_0-9]+' | sed -E 's/^([^:]*:[0-9]+):.*fn ([a-z_0-9]+).*/\2 \1/' | sort | awk '{n[$1]++; at[$1]=at[$1]" "$2} END {for (f in n) if (n[f] > 1) print f":"at[f]}' | sort | mark 2
src 'fn [a-z]+_at\(|fn (decimal|hexadecimal)|fn (hex|push|extend)\(' | mark 2
# 3: loops that count
src 'for \(?[a-z_]+(, [a-z_]+\))? in [^{]*\.\.|for \([a-z]+, [a-z_]+\) in .*enumerate|while ' | mark 3
# 4: equality, order, conversion and printing by hand
src 'place\([a-z._]+\) == place|as u8 ==|fn (is|none|more|empty|partial|exact|ambiguous|found|stored|refused|needs_data|scalar|ill_formed|is_[a-z_]+|level_of|of_[a-z]+|weight|answer_of)\(' | mark 4
# 5: facts in three or more clauses, and parameters that travel together
grep -rhoE --include=*.rt '(requires|ensures)( [a-z]+)? \{.*\}' crates/*/src | sed -E 's/^(requires|ensures) [a-z]+ \{/\1 {/' | sort | uniq -c | awk '$1 >= 3' | mark 5
grep -rhoE --include=*.rt '[(, ](nodes|used|mods|modes|verbs|keys|rt|map): [^,)]*, (nodes|used|mods|modes|verbs|keys|rt|map): [^,)]*' crates/*/src | sort | uniq -c | awk '$1 >= 3' | mark 5
# 6: arrays, and lengths beside them
src ': \[[A-Za-z0-9'"'"'& ,()]+; [A-Za-z0-9_]+\]|^ *(pub(\(crate\))? )?(len|count|used|start|end): usize' | mark 6
# 7: a match on a kind that says which step to run
src 'match (rule|form|route|plainness|request|record|[a-z_]+\([^)]*\)|place|step)\b.*\{$' | mark 7
# 8: answers and lemma files
git ls-files 'crates/*/proofs/*.antt' | grep -cE 'Answers.antt$' | mark 8-answer-files:
git ls-files 'crates/*/proofs/*.antt' | xargs grep -hE '^pub [a-z]' | wc -l | mark 8-statements:
