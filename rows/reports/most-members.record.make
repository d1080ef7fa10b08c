# An interrogation of a data set of 256 members, to a client whose PDUs have at most 65000 octets, in one, and to another one
# whose PDUs have at most 1024, in two: it asks for the oldest entry again
printf 'record 1\nconfig 1\nserver Demo Bay 1\nld BAY1\nln LLN0\nset Most\n'
for number in $(seq 256); do
    printf 'member BAY1/GGIO1$ST$Ind%d\n' "$number"
done
printf "brcb brcbEv01 'Ev1 'BAY1/LLN0\$Most 1 0111001110 0 011001 0 4000\nln GGIO1\n"
for number in $(seq 256); do
    printf 'attr ST Ind%d bool d F\n' "$number"
done
cat <<'record'
end
open 1 mms 65000
pdu 1 a055020101a550a0463023a021a11f1a04424159311a174c4c4e3024425224627263624576303124527074456e61301fa01da11b1a04424159311a134c4c4e30244252246272636245763031244749a0068301ff8301ff
take 1
take 1
lost 1
open 2 mms 1024
pdu 2 a039020101a534a0263024a022a1201a04424159311a184c4c4e3024425224627263624576303124456e7472794944a00a89080000000000000000
take 2
pdu 2 a031020101a52ca0253023a021a11f1a04424159311a174c4c4e3024425224627263624576303124527074456e61a0038301ff
take 2
take 2
end
record
