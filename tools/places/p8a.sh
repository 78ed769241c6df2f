for d in crates/*/; do c=${d#crates/}; c=${c%/}; a=$(find $d -name Answers.antt -path '*/proofs/*/*'); [ -n "$a" ] || a=/dev/null
echo "$c $(echo "$a" | grep -c Answers.antt) $(cat crates/$c/proofs/*/Answers.antt 2>/dev/null | grep -cE '^[a-z].* c = ') $(cat $a | grep -cE '^[a-z][^ ]* c =( |$)') $(cat $a | grep -cE '^pub [^ ]+ : goal\.')"; done
