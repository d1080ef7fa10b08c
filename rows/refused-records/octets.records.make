# Octets that stand badly in this text, which are refused before all else: those outside 20 to 7E, and lines of 140100 and 140101 octets.
printf 'record 1\nconfig 1\nserver a b c\nend\n'
printf '== 7F\ntake 1\177\n=> record line 5 kind 8\n'
printf '== 1F in a remark\n#\037\n=> record line 5 kind 8\n'
printf '== a carriage return\ntake 1\r\n=> record line 5 kind 8\n'
printf '== 80, before the word and the number\nx\200 17\n=> record line 5 kind 8\n'
printf '== a tab, before the count of words\ntake\t17\n=> record line 5 kind 8\n'
printf '== a remark of 140100 octets\n#%0140099d\nend\n=> end\n' 0
printf '== a remark of 140101 octets\n#%0140100d\nend\n=> record line 5 kind 8\n' 0
