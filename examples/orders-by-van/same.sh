if [ "$(wc -l <orders.txt)" -gt 4 ]; then
    head -n 4 orders.txt    # the first van
    tail -n +5 orders.txt   # the second van
else
    cat orders.txt          # the only van
fi
