all: north.tally south.tally east.tally west.tally
	cat $^
%.tally: %.txt
	LC_ALL=C sort $< | uniq -c | sed 's/^ *//' >$@
