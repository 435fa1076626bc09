awk '{ print int((NR - 1) / 6), $0 }' server.log | grep -v probe | grep ERROR | uniq | tee errors.txt
wc -l <errors.txt
