# 130 values are reported one after another: SqNum has two octets from 128 on, as a value does; EntryID has eight
cat <<'record'
record 1
config 1
server Demo Bay 1
ld BAY1
ln LLN0
set Events
member BAY1/MMXU1$MX$TotW$mag$i
brcb brcbEv01 'Ev1 'BAY1/LLN0$Events 1 0111001110 0 011001 0 200
ln MMXU1
attr MX TotW$mag$i int32 d 0
end
open 1 mms 1024
pdu 1 a031020101a52ca0253023a021a11f1a04424159311a174c4c4e3024425224627263624576303124527074456e61a0038301ff
take 1
record
for value in $(seq 130); do
    printf 'set BAY1/MMXU1$MX$TotW$mag$i %d\ntake 1\n' "$value"
done
echo end
