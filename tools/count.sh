# The places of the design pass, by point: run from the top of the repository. docs/DESIGN-PASS.md says what each line counts.
cd crates || exit 1
per() { # what, regex over src/
  printf '%-44s' "$1"
  total=0
  where=
  for crate in *; do
    n=$(cat "$crate"/src/*.rt 2>/dev/null | grep -cE "$2")
    if [ "$n" -gt 0 ]; then
      where="$where $crate $n;"
      total=$((total + n))
    fi
  done
  echo "$total:$where"
}
echo '1 own enums and structs for answers, flags, numbers'
per '1a enums' '^(pub(\(crate\))? )?enum '
per '1b structs of a part or flag and a value' '^(pub(\(crate\))? )?struct \w*(Answer|Turn)\b'
per '1c takes of an own Part' 'let Part::(Read|Failed)'
per '1c built fields of an own Part' '^\s*part(:|,)'
per '1d comments: 0 for none, 1 more than' '^\s*//.*(or 0\b|0 for none|0 where|1 more than)'
per '1e constants for kinds and refusals' '^pub const [A-Z0-9_]+: u16 = [^;]*;'
per '1e uses of kinds' '\bkind::[A-Z]'
per '1e uses of failures' '\bfailures?::[A-Z]'
per '1e uses of slots' '\bslot::[A-Z]'
per '1e uses of opcodes' '\bopcode::[A-Z]'
echo '3 loops'
per '3 while' '^\s*while '
per '3 loop' '^\s*loop \{'
per '3 for over a range' '^\s*for .* in .*\.\.'
per '3 other for' '^\s*for [^.]*\{$'
echo '4 by hand'
per '4 equality by hand' 'fn (same|same_part|is_named|is_x|ends_statement|same_\w+)\b'
per '4 derives' '#\[derive'
per '4 functions that put or print' 'fn (put|print|show|write)_?\w*'
echo '5 facts and parameters'
per '5 requires' '^\s*requires '
per '5 source and table lent together' 'table: &(mut )?\[u16\]'
per '5 context and output together' 'context: Context'
per '5 output' 'output: Output[,)]'
per '5 image' 'image: &(mut )?\[u16'
echo '6 buffers'
per '6 an output buffer' 'out: &mut \[u8\]'
per '6 text lent' 'text: &(mut )?\[u8\]'
per '6 count of a table' '(names|count): usize,'
echo '7 switches by a number'
per '7 functions of a number' 'fn .*\b(kind|slot|opcode|number): (u16|usize)'
echo '8 proofs, lines'
for name in Proof Answers Invariants; do
  printf '%-44s' "8 $name.antt"
  find . -path ./\*/out -prune -o -name "$name.antt" -print | grep /proofs/ | xargs cat 2>/dev/null | wc -l
done
printf '%-44s' '8 lemma files'
find . -path ./\*/out -prune -o -name '*.antt' -print | grep /proofs/ | grep -vE '/(Proof|Answers|Invariants)\.antt$' | xargs cat | wc -l
