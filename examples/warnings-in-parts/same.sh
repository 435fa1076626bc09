split -l 4 server.log part.
for part in part.??; do
    grep WARN "$part" >"$part.warnings" &
done
wait
cat part.??.warnings
