# The limits of counts: so many lines are accepted, and with one more the line is refused.
limit() { # WHAT MOST COUNTS LINE BEFORE EACH: COUNTS with MOST of EACH, whose @ is a number from 0; LINE is refused where there is one more
    for count in "$2" "$(($2 + 1))"; do
        echo "== $count $1"
        printf "$5"
        awk -v count="$count" -v each="$6" 'BEGIN {
            split(each, part, "@")
            for (i = 0; i < count; i++) printf "%s%d%s", part[1], i, part[2]
            print "\nend"
        }'
        if [ "$count" -eq "$2" ]; then echo "=> ok $3"; else echo "=> config line $4 kind 11"; fi
    done
}
printf 'config 1\nserver Demo Bay 1\nld A\nln LLN0\n'
limit "domains behind the first" 15 "16 16 1 0 0 0" 36 'attr ST a bool - F\n' 'ld D@\nln L\n'
limit "logical nodes behind the first" 255 "1 256 0 0 0 0" 260 '' 'ln N@\n'
limit "attributes" 10000 "1 1 10000 0 0 0" 10005 '' 'attr ST a@ bool - F\n'
limit "data sets" 128 "1 1 1 128 0 0" 262 'attr ST a bool - F\n' 'set S@\nmember A/LLN0$ST$a\n'
limit "members, each with a remark behind it" 256 "1 1 1 1 0 0" 519 'attr ST a bool - F\nset S\n' 'member A/LLN0$ST$a\n#@\n'
limit "blocks" 32 "1 1 0 0 32 0" 37 '' "brcb b@ 'x ' 1 0000000000 0 000000 0 1\\n"
limit "controls" 64 "1 1 0 0 0 64" 69 '' 'ctl c@ 1 1 0 bool\n'
limit "lines besides six" 19994 "1 1 0 0 0 0" 20001 '' '#@\n'
