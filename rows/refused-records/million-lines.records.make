# A million empty lines, and what follows them.
awk 'BEGIN { for (i = 0; i < 1000000; i++) print "" }'
echo "== nothing: the first line is looked for to the end"
echo "=> record line 1000001 kind 7"
echo "== an empty line, which is one more than there may be"
echo
echo "=> limit 1 line 1000001"
