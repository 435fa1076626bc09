text=$(cat history.txt)
while [ "$(echo "$text" | wc -l)" -gt 4 ]; do
    text=$(echo "$text" | tail -n +2)
done
echo "$text"
