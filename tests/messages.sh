# The messages: what a supplier reads first of a damaged type file or document, and the library that other programs take them from.
set -eu
cd "$(dirname "$0")/.."
export LC_ALL=C
. tests/tools
out=$PWD/target/tests/messages
rm -rf "$out"
mkdir -p "$out"
{ built && make; } >"$out/make.log" 2>&1 || { cat "$out/make.log"; exit 1; }
strict="-Wall -Wextra -pedantic -Werror"
sgml=${SGML:-$PWD/target/sgml} # another build, to see that a test fails there
passed=0 failed=0

# check WHAT COMMAND..: the command succeeds.
check() {
    if "${@:2}"; then
        passed=$((passed + 1))
    else
        failed=$((failed + 1))
        echo "failed: $1"
    fi
}

cp tests/command/*.type tests/command/*.sgm examples/*.type "$out"
cd "$out"

# says TYPE TEXT: the first line about the document on standard input under this type, without the file's name.
says() {
    cat >d.sgm
    "$sgml" -q --check "$1" d.sgm >said 2>&1 || true
    check "$(head -1 said), not $2" test "$(head -1 said)" = "$2"
}

# without PATTERN: the sample document with the first text of this pattern taken out; with PATTERN TEXT: with this in its place.
without() { sed -z "s|$1||" dental.sgm; }
with() { sed -z "s|$1|$2|" dental.sgm; }

echo "names that the type does not declare"
printf '%s\n' '<!ELEMENT LIST - O (ITEM+)>' '<!ELEMENT ITEM - O (NAME,QTTY)>' '<!ELEMENT NAME - O (PCDATA)>' '<!ELEMENT QTY - O (#PCDATA)>' >slip.type
says slip.type "d.sgm:1:19: data is not allowed here: the content model of NAME in slip.type has PCDATA, which is never declared; #PCDATA may be meant; here may come <PCDATA> (never declared) [12]" <<<'<LIST><ITEM><NAME>clamp<QTY>4'
check "the warnings stand below" test "$(sed 1d said)" = "slip.type:2:26: warning: QTTY is used in a content model, but never declared; is it QTY?
slip.type:3:21: warning: PCDATA is used in a content model, but never declared; is it #PCDATA?"
says slip.type "d.sgm:1:19: </NAME> comes, but NAME (begun at 1:13) is not complete: <PCDATA> (never declared) is missing [13]" <<<'<LIST><ITEM><NAME></NAME>'
sed -i 's/(PCDATA/(#PCDATA/' slip.type
says slip.type "d.sgm:1:24: <QTY> is not allowed here: the content model of ITEM in slip.type has QTTY, which is never declared; QTY may be meant; here may come <QTTY> (never declared), data or </NAME> [12]" <<<'<LIST><ITEM><NAME>clamp<QTY>4'
says slip.type "d.sgm:1:24: the element QTTY is not declared in slip.type, though it is used in a content model there; declared is QTY [10]" <<<'<LIST><ITEM><NAME>clamp<QTTY>4'
# the element whose model has the slip has not begun
sed 's/NUMBER  O O (#/NUMBER  O O (/' par.type >slip.type
says slip.type "d.sgm:1:9: data is not allowed here: the content model of NUMBER in slip.type has PCDATA, which is never declared; #PCDATA may be meant; here may come <NUMBER> or <PCDATA> (never declared) [12]" <<<'<DRAWER>1<ITEM>clamp'
sed 's/(DRAWER+)/(DAWER+)/' par.type >slip.type
says slip.type "d.sgm:1:1: <DRAWER> is not allowed here: the content model of CABINET in slip.type has DAWER, which is never declared; DRAWER may be meant; here may come <CABINET> or <DAWER> (never declared) [12]" <<<'<DRAWER>1<ITEM>clamp'
says dental.type "d.sgm:1:1: the element CATALGO is not declared in dental.type; is it CATALOG? [10]" <<<'<CATALGO>'
check "no warning where all names are declared" test "$(wc -l <said)" -eq 1

echo "attributes"
says dental.type "d.sgm:6:1: the tag <ITEM lacks the attribute PAR, which is required and declared NUMBER: 1 to 8 digits [21]" < <(without ' PAR="40"')
says dental.type "d.sgm:6:1: the tag <ITEM lacks the attribute CODE, which is required and declared NAME: a name of 1 to 8 bytes [21]" < <(without ' CODE="D101"')
says dental.type "d.sgm:6:1: the tag <ITEM lacks the attributes PAR, CODE, which are required [21]" < <(without ' PAR="40" CODE="D101"')
says dental.type "d.sgm:6:7: the element ITEM has no attribute PRA; is it PAR? [20]" < <(with PAR PRA)
says dental.type "d.sgm:7:34: the value \"$(printf 'old%.0s' {1..20})..\" does not fit STATE of ITEM, which is declared (new|old|gone): one of these [22]" < <(with '"old"' "\"$(printf 'old%.0s' {1..21})\"")

echo "quotes that are missing"
says dental.type "d.sgm:6:25: in the tag <ITEM that began at 6:1 only \"=\" is allowed here, not '\"'; the value that began at 6:11 may lack its closing quote [4]" < <(with '"40"' '"40')
says dental.type "d.sgm:7:12: in the tag <ITEM that began at 6:1 only \">\" or the name of an attribute is allowed here, not 20; the value that began at 6:21 may lack its closing quote [4]" < <(with 'D101"' D101)
says dental.type "d.sgm:7:12: in the tag <ITEM that began at 6:1 only \">\" or the name of an attribute is allowed here, not 20; the value that began at 6:21 may lack its closing quote [4]" < <(with 'D101">' 'D101')
says dental.type "d.sgm:20:1: the document ends within the tag <ITEM that began at 17:1 and has no \">\"; the value that began at 17:21 has no closing quote [4]" < <(with 'P2" PAR="9"' 'P2" PAR="9')
says dental.type "d.sgm:20:1: the document ends within the tag <GROUP that began at 14:1 and has no \">\"; the value that began at 14:11 has no closing quote [4]" < <(with "paste'" paste)
says dental.type "d.sgm:15:11: the value \"9><ITEM CODE=\" does not fit PAR of ITEM, which is declared NUMBER: 1 to 8 digits; its closing quote may be missing [22]" < <(sed -z 's|Pastes.*|<ITEM PAR="9><ITEM CODE=">|; s|<TITLE>\(<ITEM PAR="9\)|\1|' dental.sgm)
# a value that has run on over 9,000 tags, behind a comment with many "<"
{ printf '<CATALOG><HEAD><SUPPLIER>a<DATE>b<GROUP><TITLE>a<!-- '; printf '<%.0s' {1..300}; printf ' --><ITEM PAR="1" CODE="a>'; printf '<NAME>x<QTY>3%.0s' {1..4700}; } >run-on
says dental.type 'd.sgm:1:61480: the document ends within the tag <ITEM that began at 1:358 and has no ">"; the value that began at 1:377 has no closing quote [4]' <run-on
sed 's/"new">/"new>/' dental.type >quote.type
says quote.type "quote.type:19:1: the type file ends within the declaration that began at 15:1 and has no \">\"; the value that began at 17:37 has no closing quote [4]" <dental.sgm

echo "a start that is missing"
says dental.type "d.sgm:2:1: <SUPPLIER> is not allowed here: <HEAD> may be missing before it; CATALOG (begun at 1:1) is not complete; here may come <HEAD> [12]" < <(without '<HEAD>')
page() { sed -z "s|$1|$2|" page.sgm; }
says page.type "d.sgm:10:1: <LI> is not allowed here: <UL> or <OL> may be missing before it; here may come <H1>, <H2>, <P>, <A>, <B>, <I>, <BR>, <HR>, <IMG>, <UL>, <OL>, <DL> and more [12]" < <(page '<UL>' '')
says page.type "d.sgm:15:1: <P> is not allowed here: <DD> or </DL> may be missing before it; DL (begun at 13:1) is open; here may come <A>, <B>, <I>, <DT>, <DD>, data or </DT> [12]" < <(page '<DD>' '')
says page.type "d.sgm:22:25: <TD> is not allowed here: <TR> may be missing before it; here may come <TR> or </TABLE> [12]" < <(page 'par.<TR>' 'par</TR>')
says page.type "d.sgm:20:1: <TABLE> is not allowed here: </UL> may be missing before it; UL (begun at 9:1) is open; here may come <P>, <A>, <B>, <I>, <BR>, <IMG>, <UL>, <OL>, <LI>, <DL>, data or </P> [12]" < <(page '</UL>' '')
says dental.type "d.sgm:1:1: <HEAD> is not allowed here: <CATALOG> may be missing before it; the document element is CATALOG, the first that dental.type declares; here may come <CATALOG> [12]" < <(without '<CATALOG>.')
# the same under a type of 27,000 bytes, in which the search has more to ask
{ for i in {1..160}; do echo "<!-- $(printf 'words %.0s' {1..25}) -->"; done; cat page.type; } >large.type
says large.type "d.sgm:15:1: <P> is not allowed here: <DD> or </DL> may be missing before it; DL (begun at 13:1) is open; here may come <A>, <B>, <I>, <DT>, <DD>, data or </DT> [12]" < <(page '<DD>' '')

echo "the element that is in the way, and what is missing in it"
says dental.type "d.sgm:6:60: <QTY> is not allowed here: ITEM (begun at 6:1) has its QTY already, at 6:55; here may come <KIT>, <ITEM>, <UNIT>, <NOTE>, data or </QTY> [12]" < <(with '<QTY>' '<QTY><QTY>')
says dental.type "d.sgm:6:62: <QTY> is not allowed here: ITEM (begun at 6:1) has its QTY already, at 6:55; </QTY> may be meant; here may come <KIT>, <ITEM>, <UNIT>, <NOTE>, data or </QTY> [12]" < <(with '12<UNIT>' '12<QTY>')
says dental.type "d.sgm:6:55: data is not allowed here: <QTY> may be missing before it; STERILE is EMPTY and holds no data; here may come <QTY> [12]" < <(without '<QTY>')
sed 's/(SUPPLIER,DATE)/(SUPPLIER|DATE)/' dental.type >either.type
says either.type "d.sgm:3:1: <DATE> is not allowed here: HEAD (begun at 2:1) has SUPPLIER instead, at 2:7; here may come <GROUP>, data or </SUPPLIER> [12]" <dental.sgm
says par.type "d.sgm:1:1: <ITEM> is not allowed here: the document element is CABINET, the first that par.type declares; ITEM belongs in DRAWER; here may come <CABINET> or <DRAWER> [12]" <<<'<ITEM>clamp'
says par.type "d.sgm:1:10: <QTY> is not allowed here, in NUMBER (inferred at 1:9) or around it; QTY belongs in ITEM; here may come <DRAWER>, <ITEM>, data or </NUMBER> [12]" <<<'<DRAWER>2<QTY>12'
says dental.type "d.sgm:6:51: <STERILE> is not allowed here: in ITEM (begun at 6:1) it belongs before QTY, which is at 6:46; here may come <KIT>, <ITEM>, <UNIT>, <NOTE>, data or </QTY> [12]" < <(with '<STERILE><QTY>' '<QTY><STERILE>')
says dental.type "d.sgm:6:55: <UNIT> is not allowed here: <QTY> is missing before it in ITEM (begun at 6:1); here may come <QTY> [12]" < <(without '<QTY>12')
printf '%s\n' '<!ELEMENT A - - (NAME,QTY)+>' '<!ELEMENT NAME - O (#PCDATA)>' '<!ELEMENT QTY - O (#PCDATA)>' >pairs.type
says pairs.type "d.sgm:1:17: <QTY> is not allowed here: <NAME> may be missing before it; A (begun at 1:1) has its QTY already, at 1:11; </QTY> may be meant; here may come <NAME>, data or </QTY> [12]" <<<'<A><NAME>a<QTY>1<QTY>2</A>'
says dental.type "d.sgm:6:55: </STERILE>, but STERILE is EMPTY and has no end tag [11]" < <(with '<STERILE>' '<STERILE></STERILE>')
says dental.type "d.sgm:8:39: </NOTE>, but no NOTE is open; the last NOTE (begun at 8:1) ended at 8:32; open are CATALOG, GROUP, ITEM [11]" < <(with '</NOTE>' '</NOTE></NOTE>')
says dental.type "d.sgm:8:26: </NOTE>, but no NOTE is open; <NOTE> may be missing before it; open are CATALOG, GROUP, ITEM, QTY [11]" < <(without '<NOTE>')
says dental.type "d.sgm:9:6: <KIT> is not allowed here: KIT (begun at 9:1) is open already; here may come <NAME> or data [12]" < <(with '<KIT>' '<KIT><KIT>')
says dental.type "d.sgm:10:1: </KIT> comes, but KIT (begun at 9:1) is not complete: <ITEM> is missing; here may come <ITEM>, data or </NAME> [13]" < <(sed -z 's|drill set.*</KIT>|drill set\n</KIT>|' dental.sgm)
says dental.type "d.sgm:1:79: </KIT> comes, but ITEM (begun at 1:55) is not complete: <QTY> is missing; here may come <STERILE>, <QTY>, data or </NAME> [13]" <<<'<CATALOG><HEAD><SUPPLIER>a<DATE>b<GROUP><TITLE>a<KIT>a<ITEM PAR="1" CODE="a">x</KIT>'
printf '%s\n' '<!ELEMENT A - - (NOTE*,(B|(C,D)),E)>' '<!ELEMENT NOTE - O EMPTY>' '<!ELEMENT B - O EMPTY>' '<!ELEMENT C - O EMPTY>' '<!ELEMENT D - O EMPTY>' '<!ELEMENT E - O EMPTY>' >choice.type
says choice.type "d.sgm:1:4: </A> comes, but A (begun at 1:1) is not complete: <B> or <C> is missing; here may come <NOTE>, <B> or <C> [13]" <<<'<A></A>'
says choice.type "d.sgm:1:10: </A> comes, but A (begun at 1:1) is not complete: <E> is missing [13]" <<<'<A><C><D></A>'
printf '%s\n' '<!ELEMENT A - - (B & C & NOTE?)>' '<!ELEMENT NOTE - O EMPTY>' '<!ELEMENT B - O EMPTY>' '<!ELEMENT C - O EMPTY>' >any.type
says any.type "d.sgm:1:4: </A> comes, but A (begun at 1:1) is not complete: <B> or <C> is missing; here may come <NOTE>, <B> or <C> [13]" <<<'<A></A>'
says any.type "d.sgm:1:7: </A> comes, but A (begun at 1:1) is not complete: <C> is missing; here may come <NOTE> or <C> [13]" <<<'<A><B></A>'

echo "references, bytes, names, separators"
says stock.type 'd.sgm:1:2: &amp; is an entity reference, which is not supported; write the character itself, "&", with a space after it if a letter follows [5]' <<<'B&amp;O'
says stock.type 'd.sgm:1:4: &quot; is an entity reference, which is not supported; write the character itself: " [5]' <<<'12 &quot;'
says stock.type 'd.sgm:1:4: &deg; is an entity reference, which is not supported; write the character itself, or a word for it [5]' <<<'12 &deg;'
says stock.type 'd.sgm:1:2: &o is an entity reference, which is not supported; for the character itself write a space after it: & o [5]' <<<'B&o'
says stock.type 'd.sgm:1:1: &#43; is a character reference, which is not supported; write the character itself: + [5]' <<<'&#43;'
printf '\xef\xbb\xbf<LIST>x' >bom
says stock.type 'd.sgm:1:1: the file begins with a byte order mark (0xEF 0xBB 0xBF), which is not allowed; save it without one, as ASCII [2]' <bom
printf '\xff\xfe<\0L\0' >bom
says stock.type 'd.sgm:1:1: the file begins with a byte order mark of UTF-16, which is not allowed; save it as ASCII [2]' <bom
says stock.type 'd.sgm:1:2: the byte 0xC2 is not allowed: only ASCII characters are [2]' <<<$'5\xc2\xb5m'
says dental.type "d.sgm:1:2: SUPPLIERS has 9 bytes, and a name has at most 8; is it SUPPLIER? [3]" <<<'<SUPPLIERS>'
sed 's/CODE/QUANTITY/' dental.type >long.type
says long.type "d.sgm:6:16: QUANTITYY has 9 bytes, and a name has at most 8; is it QUANTITY? [3]" < <(with CODE QUANTITYY)
sed 's/<!ELEMENT HEAD/<! ELEMENT HEAD/' dental.type >separator.type
says separator.type 'separator.type:3:3: a separator is not allowed here; expected: "--", ">", "ELEMENT" or "ATTLIST" [4]' <dental.sgm
sed 's/<!ELEMENT HEAD/<!ELEMENT/; s/NOTE\*)/NOTE *)/' dental.type >separator.type
says separator.type 'separator.type:3:11: "-" is not allowed here; expected: a name [4]' <dental.sgm
printf '<!- - x -->' >separator.type
says separator.type 'separator.type:1:4: a separator is not allowed here; expected: "-" [4]' <dental.sgm
printf '<!ELEMENT A - O EMPTY><!ATTLIST A X CDATA>' >separator.type
says separator.type 'separator.type:1:42: ">" is not allowed here; expected: "#REQUIRED", "#IMPLIED" or a value in quotes [4]' <dental.sgm
printf '<!ELEMENT A - O EMPTY -- no content>' >separator.type
says separator.type 'separator.type:1:37: the type file ends within the declaration that began at 1:1 and has no ">"; the comment that began at 1:23 has no closing "--" [4]' <dental.sgm
printf '<!ELEMENT A - O (B *)>' >separator.type
says separator.type 'separator.type:1:20: "*" is not allowed here; expected: ",", "|", "&" or ")" [4]' <dental.sgm

says dental.type "d.sgm:1:1: <!ELEMENT is not supported: the declarations are in the type file, dental.type; leave out the 22 bytes from 1:1 to the \">\" at 1:22 [5]" <<<'<!ELEMENT A - O EMPTY><CATALOG>'
says dental.type 'd.sgm:1:1: <!ENTITY is not supported: a document has tags, data and comments <!-- .. -->; leave out the 15 bytes from 1:1 to the ">" at 1:15 [5]' <<<'<!ENTITY a "b"><CATALOG>'
printf '%s\n' '<!ELEMENT A - O EMPTY>' '<!ATTLIST A X ([a]) #IMPLIED>' >tokens.type
says tokens.type 'tokens.type:2:16: "[" in a group of tokens is not supported [5]' <<<'<A>'

echo "a document type declaration"
says stock.type 'd.sgm:1:1: <!DOCTYPE is not supported: the declarations are in the type file, stock.type; leave out the 38 bytes from 1:1 to the ">" at 2:21 [5]' <<'DOC'
<!DOCTYPE LIST [
<!ELEMENT LIST ANY>]>clamp<QTY>40
DOC
check "without these bytes it is accepted" "$sgml" --check stock.type <(tail -c +39 d.sgm)
says stock.type 'd.sgm:1:1: <!DOCTYPE is not supported: the declarations are in the type file, stock.type; leave out the 35 bytes from 1:1 to the ">" at 1:35 [5]' <<<'<!DOCTYPE LIST SYSTEM "stock>.dtd">clamp'
says stock.type 'd.sgm:1:1: a processing instruction <? is not supported; leave out the 21 bytes from 1:1 to the ">" at 1:21 [5]' <<<'<?xml version="1.0"?>clamp'
cd "$OLDPWD"

echo "the library of messages, as it is installed"
make install PREFIX="$out/prefix" >"$out/install.log"
lib=$out/prefix/lib
check "no other name is seen" test -z "$(nm -g --defined-only "$lib/libsgml_messages.a" | sed -n 's/.* [A-Z] //p' | grep -v '^sgml_')"
check "nothing of standard input and output" test -z "$(nm -u "$lib/libsgml_messages.a" | grep -E 'print|put|malloc|FILE|std')"
flags="-I$out/prefix/include"
libraries="$lib/libsgml_messages.a $lib/libsgml.a"
check "as C99" cc -std=c99 $strict -g -fsanitize=address,undefined -fno-sanitize-recover=all $flags tests/command/messages.c $libraries -o "$out/messages"
check "as C++" c++ $strict -Wold-style-cast -x c++ -fsyntax-only $flags -include sgml_messages.h /dev/null
{ printf '#include <sgml_messages.h>\n#include <stdio.h>\n'
  printf 'static uint8_t memory[SGML_MESSAGE_MEMORY], buffer[1000];\nint main(void) {\n'
  printf 'static const uint8_t type[] = "<!ELEMENT A O O (#PCDATA)>", document[] = "<B>";\n'
  printf 'uint32_t answer[SGML_ANSWER_SIZE], name_length = SGML_NAMELEN, edition = SGML_FIRST_EDITION;\n'
  printf 'size_t type_len = sizeof type - 1, document_len = sizeof document - 1, room = sizeof buffer;\n'
  printf 'size_t memory_len = sizeof memory;\n'
  sed -n 's/ \/\/ list.*//; /^ \*     if (sgml_read/,/^ \*     }/s/^ \*     //p' "$out/prefix/include/sgml_messages.h"
  printf 'return 0;\n}\n'; } >"$out/sample.c"
check "the sample of the header compiles" cc -std=c99 $strict $flags "$out/sample.c" $libraries -o "$out/sample"
check "and prints the message" test "$("$out/sample")" = "list.sgm:1:1: the element B is not declared in stock.type [10]"
cd "$out"
# same DOCUMENT: the program shows what the command shows, and the same line, column and text by themselves.
same() {
    "$sgml" --check "$1" "$2" >expected 2>&1 || true
    sed -n "1s/^$2:\([0-9:]*\): \(.*\) \[[0-9]*\]$/\1 \2/p; 1s/^$1:\([0-9:]*\): \(.*\) \[[0-9]*\]$/\1 \2/p" expected >>expected
    ./messages "$1" "$2" >said 2>&1 || true
    diff said expected
}
for pattern in '<HEAD>' '<QTY>' ' PAR="40"' '</GROUP>' '"D101' '</CATALOG>.' '<NOTE>'; do
    without "$pattern" >d.sgm
    check "the same message without $pattern" same dental.type d.sgm
done
printf '<LIST><ITEM><NAME>clamp<QTY>4' >d.sgm
check "the same message and warnings" same slip.type d.sgm
check "the same message of a type" same separator.type d.sgm
without '<HEAD>' >d.sgm
whole="d.sgm:2:1: <SUPPLIER> is not allowed here: <HEAD> may be missing before it; CATALOG (begun at 1:1) is not complete; here may come <HEAD> [12]"
short="d.sgm:2:1: this start tag or data is not allowed here [12]"
least=$((1024 * $(sed -n 's/.*SGML_MESSAGE_LEAST = \([0-9]*\) . 1024.*/\1/p' prefix/include/sgml_messages.h)))
for memory in 0 1 1000 $((least - 1)); do
    check "with $memory bytes the short text" test "$(./messages dental.type d.sgm $memory)" = "$short"
done
check "little memory: it has room for few events" test "$(./messages dental.type d.sgm $((least + 1000)))" = "$whole"
check "a text that is cut, and its length" test "$(./messages dental.type d.sgm 1000000 11)" = "d.sgm:2:1:
${#whole}"
check "no room for the text" test "$(./messages dental.type d.sgm 1000000 0)" = "
${#whole}"
cd "$OLDPWD"

echo "damaged documents and types, with sanitizers"
cc -std=c99 $strict -g -fsanitize=address,undefined -fno-sanitize-recover=all -Iinclude command/*.c target/staticlib/libsgml.a -o "$out/sgml"
cd "$out"
# damaged FILE TYPE DOCUMENT: of every seventh byte of FILE, taken out or doubled, the command says what is refused, and nothing else.
damaged() {
    local length at
    length=$(wc -c <"$1")
    for ((at = 0; at < length; at += 7)); do
        { head -c $at "$1"; tail -c +$((at + 2)) "$1"; } >less
        { head -c $((at + 1)) "$1"; tail -c +$((at + 1)) "$1"; } >more
        for damage in less more; do
            status=0
            if [ "$1" = "$2" ]; then ./sgml -q --check $damage "$3" >said 2>&1 || status=$?; else ./sgml -q --check "$2" $damage >said 2>&1 || status=$?; fi
            [ "$status" -eq 0 ] || [[ $status -eq 1 && $(head -1 said) =~ ^[a-z.]*:[0-9]+:[0-9]+:\ .*\ \[[0-9]+\]$ ]] || { head -5 said; return 1; }
        done
    done
}
check "dental.sgm" damaged dental.sgm dental.type dental.sgm
check "dental.type" damaged dental.type dental.type dental.sgm
check "page.sgm" damaged page.sgm page.type page.sgm
echo "$passed passed, $failed failed"
[ "$failed" -eq 0 ]
