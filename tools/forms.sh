#!/bin/sh
# Counts the places of each point of docs/DESIGN-PASS.md in the sources, for the tree it is called in: tools/forms.sh
cd "$(dirname "$0")/.." || exit 1
src() { ls crates/*/src/*.rt; }
n() { printf '%5d  %s\n' "$2" "$1"; }
c() { cat $(src) | grep -cE "$1"; }
o() { cat $(src) | grep -oE "$1" | wc -l; }
echo "1. enums of the shape of Option or Result, flags with a value, numbers for kinds and refusals"
n "enums with a variant for the refusal or the failure" $(c '^    (Refused|Unfit|Malformed|InType|Unread)\((Fault)\),|^    Failed,')
n "let .. else that takes an own enum apart" $(c '^ *let [A-Z][A-Za-z]*::[A-Z][A-Za-z]*(\(.*\))? = .* else \{')
n "arms and ifs that take one apart or hand one on" $(c '^ *(if let )?[A-Z][A-Za-z]*::(Refused|Read|Malformed|InType|InDocument|Ambiguous|Unread|Unclean|Events|Accepted|At)\(.*\) (=>|=)')
n "refusals made by a number" $(o '(number: |refusal\()[0-9]+')
n "numbers of a refusal returned or tested by themselves" $(o 'return (1[0-9]|2[0-9]|0);|number (!=|==) [0-9]+| r == 2[0-9]')
n "events put by the number of their kind" $(o '(put_event|put_attribute)\([^;]*, [1-8], ')
n "functions that answer 0, or the end, for none (by their comments)" $(c '^// .*(, or 0\b|; 0 if|0 if there is none|or 0\.|if there is none)')
echo "2. twins"
n "functions fault_of*, refusal, whole" $(c '^ *(pub )?fn (fault_of[a-z_]*|refusal|whole)\(')
n "functions of which one ends like another: _bytes beside _numbers, is_connector, is_same, is_name_byte, name_end, put_list" $(c '^ *(pub )?fn (clear_numbers|clear_bytes|put_numbers|put_bytes|note_numbers|note_bytes|judge|judge_to_bytes|read|read_to_bytes|list|list_to_bytes|is_connector|same_text|same_within|wide|short|widened|name_end|separators_end|allowed_end)\(')
echo "3. loops that count an index by hand"
n "while loops" $(c '^ *while ')
n ".. of them with a step of one at their end" $(cat $(src) | awk '/^ *while /{w=1;match($0,/^ */);ind=RLENGTH} w&&/^ *[a-z]+ (\+|-)= 1;/{match($0,/^ */); if(RLENGTH==ind+4)k++} w&&/^ *}$/{match($0,/^ */); if(RLENGTH==ind)w=0} END{print k+0}')
n "for loops" $(c '^ *for ')
echo "4. conversions and tests by hand"
n "functions that only convert" $(c '^ *(pub )?fn (wide|short|widened|counted|start_tag|end_tag|comment)\(')
n "functions that only compare with two or three values" $(c '^ *(pub )?fn (is_either|is_quote|is_blank|is_break|is_digit|one_of|both|is_connector)\(')
echo "5. parameters"
awk '
/^ *(pub )?(extern "C" )?fn /{infn=1;sig=""}
infn{sig=sig $0; if(/\)( ->|$|,$| where)/||/^ *\)/){ if(match(sig,/\(.*\)/)){ s=substr(sig,RSTART+1,RLENGTH-2); m=gsub(/: /,": ",s); if(m>=12)a++; else if(m>=8)b++; t++ } infn=0}}
END{printf "%5d  functions with 12 parameters or more\n%5d  functions with 8 to 11\n%5d  functions in all\n",a,b,t}' $(src)
n "lists of parameters with numbers and bytes" $(c '^ *numbers: &mut \[u32\],|numbers: &mut \[u32\], bytes')
n "lists of parameters with rows and places" $(c 'rows: &(mut )?\[u8; ROWS\]')
n "lists of parameters with names and table" $(c 'names: &(mut )?\[u32; NAMES\]')
n "clauses with length s.now ≤ type_limit" $(c 'length s.now ≤ type_limit')
n "clauses with MEMBERS ≤ length members" $(c 'MEMBERS ≤ length members')
echo "6. buffers with a length or a position beside"
n "functions that take out and at" $(c 'out: &mut \[u8\],? ?$|out: &mut \[u8\], at: usize')
n "functions that take a text, a position and a size" $(c '(at|from): usize, (size|end|n): usize')
echo "7. switches and tables of functions"
n "tables of functions, switches on a step" $(c '\[fn\(|: fn\(')
echo "8. proofs"
n "answers" $(cat crates/*/proofs/*/Answers.antt crates/*/proofs/*/*/Answers.antt 2>/dev/null | grep -cE '^pub [a-z]')
n "lines of answers and invariants" $(cat $(find crates/*/proofs -name '*.antt') | wc -l)
n "lines of definitions and laws" $(cat $(find crates/*/specs -name '*.antt') | wc -l)
