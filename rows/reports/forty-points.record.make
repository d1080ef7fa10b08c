# An interrogation of forty points, each a structure of a double point, its quality and its time, to a client whose PDUs have at
# most 1024 octets: 38 go in the first segment and two in the second, which have one SqNum
printf 'record 1\nconfig 1\nserver Demo Bay 1\nld BAY1\nln LLN0\nset Points\n'
for number in $(seq 40); do
    printf 'member BAY1/XCBR1$ST$Pos%d\n' "$number"
done
printf "brcb brcbEv01 'Ev1 'BAY1/LLN0\$Points 1 0111001110 0 011001 0 2000\nln XCBR1\n"
for number in $(seq 40); do
    printf 'attr ST Pos%d$stVal dbpos d 01\nattr ST Pos%d$q quality q 0000000000000\nattr ST Pos%d$t time - 0000000000000000\n' "$number" "$number" "$number"
done
cat <<'record'
end
open 1 mms 1024
pdu 1 a055020101a550a0463023a021a11f1a04424159311a174c4c4e3024425224627263624576303124527074456e61301fa01da11b1a04424159311a134c4c4e30244252246272636245763031244749a0068301ff8301ff
take 1
take 1
take 1
end
record
