# 65536 lines of 1024 octets are all that there may be, 67108864 octets; one more is refused in the line that it begins.
awk 'BEGIN { line = sprintf("#%01022d", 0); for (i = 0; i < 65536; i++) print line }'
printf x
