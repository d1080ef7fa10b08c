# A million empty lines, and a line that has begun: it is one more than there may be.
awk 'BEGIN { for (i = 0; i < 1000000; i++) print "" }'
printf x
