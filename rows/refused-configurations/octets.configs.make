# Octets that stand badly in this text: one outside 20 to 7E, and lines of 1000 and 1001 octets.
printf 'config 1\nserver Demo Bay 1\nld A\nln LLN0\n'
printf '== 7F in a remark\n#\177\n=> config line 5 kind 1\n'
printf '== a remark of 1000 octets\n#%0999d\nend\n=> ok 1 1 0 0 0 0\n' 0
printf '== a remark of 1001 octets\n#%01000d\nend\n=> config line 5 kind 10\n' 0
