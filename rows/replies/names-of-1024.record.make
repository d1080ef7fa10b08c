# Names of data sets to a client whose PDUs have at most 1024 octets: 44 of twenty octets and a last one.
# In BAY1 that has 36 octets, and the reply 1024; in BAY2 it has 37, so 44 names go, with moreFollows, and then the last, behind them.
sets() { # DOMAIN: its node and 44 sets
    printf 'ld %s\nln LLN0\nattr ST Ind bool - F\n' "$1"
    for number in $(seq 44); do
        printf 'set Set%012d\nmember %s/LLN0$ST$Ind\n' "$number" "$1"
    done
}
last() { # DOMAIN NAME
    printf 'set %s\nmember %s/LLN0$ST$Ind\n' "$2" "$1"
}
printf 'record 1\nconfig 1\nserver Demo Bay 1\n'
sets BAY1
last BAY1 Tnnnnnnnnnnnnnnnnnnnnnnnnnnnnnn
sets BAY2
last BAY2 Tnnnnnnnnnnnnnnnnnnnnnnnnnnnnnnn
cat <<'record'
end
open 1 mms 1024
pdu 1 a012020101a10da003800102a106810442415931
take 1
pdu 1 a012020101a10da003800102a106810442415932
take 1
pdu 1 a028020101a123a003800102a10681044241593282144c4c4e3024536574303030303030303030303434
take 1
end
record
