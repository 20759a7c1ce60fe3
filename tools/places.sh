#!/bin/sh
# Counts the places of docs/DESIGN-PASS.md in src/ at a commit: sh tools/places.sh COMMIT [-v]
# With -v each line that was counted follows its count.
commit=${1:?a commit}
lines() { git grep -nE -e "$2" "$commit" -- "${3:-crates/*/src/*.rt}" | sed "s/^$commit://" | { if [ -n "$4" ]; then grep -vE "$4"; else cat; fi; }; }
count() {
  printf '%4d  %s\n' "$(lines "$@" | wc -l)" "$1"
  if [ "$verbose" = -v ]; then lines "$@" | sed 's/^/      /'; fi
}
verbose=$2

echo 'point 1'
count '1a a table filled with a number that stands for none' '\[NO_[A-Z]+;'
count '1b an error that is a bare number or place' '-> Result<.*, (usize|Point|u8|u16|u32)>'
count '1c an answer handed on by a match' '(Ok|Some)\([a-z]+\) => [a-z]+,|None => (None|true|false)|Err\([a-z_]+\) => return Err'
count '1d a stage that is a number' 'const (STAGE|OPEN|CLOSED): u8'
count '1e a 0 that stands for no cell' ' (first|second|rank): 0,'
count '1f a yes or no in place of a Result' 'fn (push)\b.*-> bool'
count '1g a number that says nothing' '-> u8$' 'crates/paths/src/*.rt'

echo 'point 3'
count '3a a while or a loop' '^ *(while|loop)\b'
count '3b a for over a range of numbers' '^ *for [a-z_]+ in .*\.\.'
count '3c a for with enumerate' '^ *for .*enumerate\(\)'

echo 'point 4'
count '4a numbers compared inside newtypes' '\.0 (==|!=) |(==|!=) [a-z_.]+\.0\b' '' 'ensures'
count '4b a match that answers yes or no' '=> (true|false),'
count '4c a conversion written as a function' 'fn (number|named|of_word|word|kind_of|op_of|at_line)\('
count '4d a struct that only wraps a value to print it' 'impl fmt::Display for (Heading|KindName|Item|Verdict)\b'
count '4e a field copied into a local to be printed' '^        let (number|place|globals|locals|points|procedures|entry|exit|statements|calls|found|settled|waiting|point|fact|item|height) = self(\.[a-z]+)+(\.0)?;$'
count '4f two comparisons that are a range' '[0-9a-z]+ <= [a-z.()]+ && [a-z.()]+ <=? [A-Za-z0-9_]+'

echo 'point 5'
count '5a functions that take a program and a problem' 'problem: &Q\b'
count '5b the facts of a table in a requires' 'requires (facts|points|stands|next|callable|entered|led|origin) \{'
count '5c bare numbers of facts that travel together' 'd: u8, e: u8|^    d: u8,$'
count '5d the texts and numbers of a phrase' 'before: &\[u8\]'
count '5e a portion and an end' 'portion: Portion,'

echo 'point 6'
count '6a arrays in structs' '^    (pub )?[a-z_]+: \[[A-Za-z0-9_<>]+; [A-Z_]+\],'
count '6b a slice with a count beside it' ': &mut usize'

echo 'point 7'
count '7a traits that carry one function' 'trait Rule\b'
count '7b a match on which step to run' 'match (choice|end)\b'

echo 'point 8'
count '8a answers' '^pub .* : goal\.' 'crates/*/proofs/*Answers.antt'
printf '%4d  %s\n' "$(git ls-tree -r --name-only "$commit" crates | grep '/proofs/' | while read -r f; do git show "$commit:$f"; done | wc -l)" '8b lines of proofs'
