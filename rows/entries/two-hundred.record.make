# two hundred values in a buffer for three: the first report has the oldest that is retained, and is marked
cat <<END
# two hundred values in a buffer for three
record 1
config 1
server Demo Bay 1
ld BAY1
ln LLN0
set Events
member BAY1/XCBR1\$ST\$Pos
member BAY1/GGIO1\$ST\$Ind1
member BAY1/MMXU1\$MX\$TotW\$mag\$i
brcb brcbEv01 'Ev1 'BAY1/LLN0\$Events 1 0111001110 0 011001 0 100
ln XCBR1
attr ST Pos\$stVal dbpos d 01
attr ST Pos\$q quality q 0000000000000
attr ST Pos\$t time - 0000000000000000
ln GGIO1
attr ST Ind1\$stVal bool d F
attr ST Ind1\$q quality q 0000000000000
attr ST Ind1\$t time - 0000000000000000
ln MMXU1
attr MX TotW\$mag\$i int32 d 0
end
open 1 direct
END
i=1
while [ $i -le 200 ]; do
    echo "at $((441763200000 + i))"
    echo "set BAY1/MMXU1\$MX\$TotW\$mag\$i $i"
    i=$((i + 1))
done
cat <<END
write 1 BAY1/LLN0\$BR\$brcbEv01 RptEna T
take 1
end
END
