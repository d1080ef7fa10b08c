# A TSDU of 70000 octets in two DTs, the first of 65528: a report, which asks nothing, and the connection goes on. One of 70001 octets is
# refused where its second DT comes; all octets before that are told
zeros() { # COUNT
    head -c "$1" /dev/zero | od -An -v -tx1 | tr -d ' \n'
}
tsdu() { # HEAD REST: a head of 27 octets in a DT with 65501 more, and so many in the last DT
    printf 'in 1 0300ffff02f000%s%s\n' "$1" "$(zeros 65501)"
    printf 'in 1 0300%04x02f080%s\n' $(($2 + 7)) "$(zeros "$2")"
}
cat <<'record'
record 1
config 1
server Demo Bay 1
ld BAY1
ln MMXU1
attr MX TotW$mag$i int32 - 5
end
open 1 wire
in 1 0300000b06e00000000100
in 1 0300008202f0800d79c1773175a003800101a26ea423300f0201010604520100013004060251013010020103060528ca22020130040602510161473045020101a040603ea107060528ca220203be33283106025101020103a028a826800300fde881010582010583010aa416800101810305f100820c03ee1c00000408000079ef18
record
tsdu 0100010061830111673083011162020103a08301115aa383011155 4472
echo 'take 1'
echo 'in 1 0300001c02f08001000100610f300d020103a008a006020101800100'
echo 'take 1'
tsdu 0100010061830111683083011163020103a08301115ba383011156 4473
echo end
