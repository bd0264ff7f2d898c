# counts the places of the design pass's points in the sources below a folder: sh places.sh FOLDER
cd "${1:-.}" || exit 2
S='crates/*/src/*.rt'
n() { printf '%-4s %s\n' "$1" "$(eval "$2" | wc -l)"; }
n 1a "grep -hE '^ *(pub )?(ok|failed|more|long|adds|closes): bool,|^ *(pub )?number: u8,|Unreadable,\$' $S"
n 1b "grep -hE 'return [1-9][0-9]*;|(number|refusal|other) != 0|Refused\(' $S"
n 1c "grep -hE '0 for none|plus 1[,;:]|for none\.|for another word' $S"
n 3a "grep -hE '^ *while ' $S"
n 3b "grep -hE '^ *[a-z]+ [+-]= 1;' $S"
n 4a "grep -hoE ' as (u8|u16|u32|u64|i64|usize)\b' $S"
n 4b "grep -hE '^ *([a-z_]+): \1,\$' $S"
n 5a "grep -hE 'table_refusal [a-z]+\.now ≡ 0' $S"
n 5b "grep -hE '^ *links: &' $S"
n 5c "grep -hE '^ *statuses: &' $S"
n 6  "grep -hE '^ *(pub )?([a-z_]*len|count): (u8|usize),' $S"
n 7  "grep -hE '\bdyn\b|Box<|[^a-z_]fn\(' $S"
n 8a "find crates -name Proof.antt -not -path '*/out/*'"
n 8b "find crates -path '*/proofs/*' -name '*.antt' -not -path '*/out/*' | xargs cat"
n all "cat $S"
